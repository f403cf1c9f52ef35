// The crate unicode-normalization over String::from_utf8_lossy. The answer goes straight into the
// caller's buffer, so that nothing is allocated for it. The crate has no names and no order, so
// Rust only mends here.
extern crate unicode_normalization;
use unicode_normalization::UnicodeNormalization;

/// # Safety
/// `text` is good for `length` bytes to read, `out` for `room` bytes to write, and the two do not
/// overlap.
#[no_mangle]
pub unsafe extern "C" fn rust_mend(text: *const u8, length: usize, out: *mut u8, room: usize) -> i64 {
    let text = std::slice::from_raw_parts(text, length);
    let out = std::slice::from_raw_parts_mut(out, room);
    let mut at = 0;
    for character in String::from_utf8_lossy(text).nfc() {
        if at + character.len_utf8() > room {
            return -1;
        }
        at += character.encode_utf8(&mut out[at..]).len();
    }
    at as i64
}
