// Reads texts of 16-bit units by Rust's `char::decode_utf16`, and writes the readings:
// tests/units/run says how both are written.

use std::io::{self, Read, Write};

fn main() -> io::Result<()> {
    let mut input = Vec::new();
    io::stdin().read_to_end(&mut input)?;
    let mut output = Vec::new();
    let mut rest = &input[..];
    while !rest.is_empty() {
        let (number, after) = rest.split_at(4);
        let length = 2 * u32::from_le_bytes([number[0], number[1], number[2], number[3]]) as usize;
        let units = after[..length].chunks_exact(2).map(|two| u16::from_le_bytes([two[0], two[1]]));
        let read: Vec<_> = char::decode_utf16(units).collect();
        let replaced = read.iter().filter(|one| one.is_err()).count();
        output.extend((replaced as u32).to_le_bytes());
        output.extend((read.len() as u32).to_le_bytes());
        for one in read {
            output.extend((one.unwrap_or(char::REPLACEMENT_CHARACTER) as u32).to_le_bytes());
        }
        rest = &after[length..];
    }
    io::stdout().write_all(&output)
}
