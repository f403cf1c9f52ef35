// Calls and answers in words that a reader can follow, long lists shortened.
// It compares nothing; that two answers read the same does not make them equal.

use crate::kinds::Kind;
use crate::wire::{Answer, Call, Width};

/// Longer lists are shown by their first and last elements.
const MOST_SHOWN: usize = 12;
/// Longer texts are shown by their bytes and not in quotes.
const MOST_OF_A_NAME: usize = 60;

/// A code point in the Standard's way: capital hex of at least four digits.
pub fn code(code: u32) -> String {
    format!("{code:04X}")
}

fn element(element: u32, width: Width) -> String {
    match width {
        Width::Byte => format!("{element:02X}"),
        Width::Unit | Width::Number => code(element),
    }
}

pub fn list(elements: &[u32], width: Width) -> String {
    let word = |&number: &u32| element(number, width);
    if elements.len() <= MOST_SHOWN {
        return elements.iter().map(word).collect::<Vec<String>>().join(" ");
    }
    let front: Vec<String> = elements[..8].iter().map(word).collect();
    let back: Vec<String> = elements[elements.len() - 2..].iter().map(word).collect();
    format!(
        "{} .. {} ({} in all)",
        front.join(" "),
        back.join(" "),
        elements.len()
    )
}

/// The argument of a kind that takes one code point.
pub fn code_argument(call: &Call) -> String {
    code(call.x)
}

/// The arguments of a kind that takes one code point and a lent buffer.
pub fn code_and_room(call: &Call) -> String {
    format!("{} room {}", code(call.x), call.room)
}

/// The arguments of a kind that takes a name. What is too long for one is shown as any bytes are.
pub fn name_argument(call: &Call) -> String {
    if call.a.len() > MOST_OF_A_NAME {
        return list(&call.a, Width::Byte);
    }
    quoted(&call.a)
}

/// Bytes as text in quotes, with escapes for what is no printable ASCII.
fn quoted(bytes: &[u32]) -> String {
    let escaped = bytes
        .iter()
        .flat_map(|&byte| std::ascii::escape_default(byte as u8));
    format!("\"{}\"", escaped.map(char::from).collect::<String>())
}

/// The arguments of a kind that takes a text of code points and a lent buffer.
pub fn text_argument(call: &Call) -> String {
    elements_argument(call, Width::Number)
}

/// The arguments of a kind that takes bytes and a lent buffer.
pub fn bytes_argument(call: &Call) -> String {
    elements_argument(call, Width::Byte)
}

/// The arguments of a kind that takes units and a lent buffer.
pub fn units_argument(call: &Call) -> String {
    elements_argument(call, Width::Unit)
}

fn elements_argument(call: &Call, width: Width) -> String {
    if call.a.is_empty() {
        return format!("no text room {}", call.room);
    }
    format!("{} room {}", list(&call.a, width), call.room)
}

/// The arguments of a kind that takes two texts of code points.
pub fn two_texts(call: &Call) -> String {
    two_lists(call, Width::Number)
}

/// The arguments of a kind that takes two texts of bytes.
pub fn two_texts_of_bytes(call: &Call) -> String {
    two_lists(call, Width::Byte)
}

fn two_lists(call: &Call, width: Width) -> String {
    let [first, second] = [&call.a, &call.b].map(|text| match text.is_empty() {
        true => "no text".to_string(),
        false => list(text, width),
    });
    format!("{first} against {second} room {}", call.room)
}

/// The answer of a kind that ranks.
pub fn order_by_value(_call: &Call, answer: &Answer) -> String {
    let order = match answer.value {
        0 => "before".to_string(),
        1 => "equal".to_string(),
        2 => "after".to_string(),
        value => format!("no order ({value})"),
    };
    order + &unexpected_values(answer.second, answer.third)
}

/// The answer of a kind that fills the lent buffer with code points.
pub fn codes_in_buffer(_call: &Call, answer: &Answer) -> String {
    in_buffer(answer, Width::Number) + &unexpected_values(answer.second, answer.third)
}

/// The answer of a kind that fills the lent buffer with bytes.
pub fn bytes_in_buffer(_call: &Call, answer: &Answer) -> String {
    in_buffer(answer, Width::Byte) + &unexpected_values(answer.second, answer.third)
}

/// The answer of a kind that fills the lent buffer with units.
pub fn units_in_buffer(_call: &Call, answer: &Answer) -> String {
    in_buffer(answer, Width::Unit) + &unexpected_values(answer.second, answer.third)
}

/// The answer of a kind that fills the lent buffer with code points and counts what it mended.
pub fn codes_and_subparts(_call: &Call, answer: &Answer) -> String {
    with_subparts(answer, Width::Number)
}

/// The answer of a kind that fills the lent buffer with bytes and counts what it mended.
pub fn bytes_and_subparts(_call: &Call, answer: &Answer) -> String {
    with_subparts(answer, Width::Byte)
}

/// The answer of a kind that fills the lent buffer with units and counts what it mended.
pub fn units_and_unpaired(_call: &Call, answer: &Answer) -> String {
    with_subparts(answer, Width::Unit)
}

fn with_subparts(answer: &Answer, width: Width) -> String {
    let front = in_buffer(answer, width);
    let rest = unexpected_values(0, answer.third);
    format!("{front}, {} ill-formed{rest}", answer.second)
}

/// The answer of a kind that fills the lent buffer with a name.
pub fn name_in_buffer(_call: &Call, answer: &Answer) -> String {
    let (front, after) = answer.lent.split_at(written_length(answer));
    let (name, left) = (quoted(front), left_after(after, Width::Byte));
    let rest = unexpected_values(answer.second, answer.third);
    format!("{}: {name} {left}{rest}", answer.value)
}

/// The answer of a kind that gives a code point as its value.
pub fn code_by_value(_call: &Call, answer: &Answer) -> String {
    code(answer.value) + &unexpected_values(answer.second, answer.third)
}

/// The answer of a kind that reads one record: its label stands in the lent buffer.
pub fn record_in_buffer(_call: &Call, answer: &Answer) -> String {
    let label = in_buffer(answer, Width::Byte);
    format!("object {} berth {} {label}", answer.second, answer.third)
}

/// The answer of a kind that counts records.
pub fn records_by_value(_call: &Call, answer: &Answer) -> String {
    let rest = unexpected_values(answer.second, answer.third);
    format!("{} records{rest}", answer.value)
}

/// The arguments of a kind that writes a record into an image.
pub fn record_to_write(call: &Call) -> String {
    let image = elements_argument(call, Width::Byte);
    let way = match call.w {
        0 => "as given".to_string(),
        1 => "joined".to_string(),
        way => format!("in no way ({way})"),
    };
    let label = list(&call.b, Width::Byte);
    format!(
        "object {} berth {} label {label} {way} as {} in {image}",
        call.y, call.z, call.x
    )
}

/// The answer of a kind that writes a record into an image.
pub fn image_written(_call: &Call, answer: &Answer) -> String {
    let values = match answer.value {
        0 => String::new(),
        value => format!(", value {value}"),
    };
    let rest = unexpected_values(answer.second, answer.third);
    format!("{}{values}{rest}", list(&answer.lent, Width::Byte))
}

/// How many elements of the buffer the answer claims, as far as there are so many.
fn written_length(answer: &Answer) -> usize {
    (answer.value as usize).min(answer.lent.len())
}

/// How many elements stand after the answer, and whether they were left as they were.
fn left_after(after: &[u32], width: Width) -> String {
    let written = after
        .iter()
        .filter(|&&number| number != width.untouched())
        .count();
    let change = match written {
        0 => String::new(),
        count => format!(", of them {count} CHANGED: {}", list(after, width)),
    };
    format!("({} left{change})", after.len())
}

/// The length, the front of the buffer, and how many elements after it were left as they were.
pub fn in_buffer(answer: &Answer, width: Width) -> String {
    let (front, after) = answer.lent.split_at(written_length(answer));
    let colon = if front.is_empty() { "" } else { ": " };
    let (front, left) = (list(front, width), left_after(after, width));
    format!("{}{colon}{front} {left}", answer.value)
}

/// Says where an answer has a value of which its kind says nothing.
pub fn unexpected_values(second: u32, third: u32) -> String {
    if second == 0 && third == 0 {
        return String::new();
    }
    format!(", second {second:X}, third {third:X}")
}

fn refusal(answer: &Answer, width: Width) -> String {
    let changed = answer
        .lent
        .iter()
        .any(|&number| number != width.untouched());
    let buffer = match changed {
        true => format!(", buffer CHANGED: {}", list(&answer.lent, width)),
        false => String::new(),
    };
    let values = unexpected_values(answer.second, answer.third);
    format!(
        "refused {} at {}{values}{buffer}",
        answer.refusal, answer.value
    )
}

pub fn call_in_words(kind: &Kind, call: &Call) -> String {
    format!("{} of {}", kind.name, (kind.arguments)(call))
}

pub fn answer_in_words(kind: &Kind, call: &Call, answer: &Answer) -> String {
    if answer.refusal == 0 {
        return (kind.outcome)(call, answer);
    }
    // An image is no lent buffer: what stands in it is the caller's own.
    if kind.shape.returns_image {
        return format!("refused {} at {}", answer.refusal, answer.value);
    }
    refusal(answer, kind.shape.lent)
}

/// Where two answers part, exactly; the words above may be too short to show it.
pub fn first_difference(expected: &Answer, got: &Answer) -> String {
    let numbers = [
        ("refusal", expected.refusal, got.refusal),
        ("value", expected.value, got.value),
        ("second", expected.second, got.second),
        ("third", expected.third, got.third),
    ];
    for (name, expected, got) in numbers {
        if expected != got {
            return format!("{name} {expected:X} expected, {got:X} got");
        }
    }
    let pairs = expected.lent.iter().zip(&got.lent);
    match pairs
        .enumerate()
        .find(|(_, (expected, got))| expected != got)
    {
        Some((index, (expected, got))) => {
            format!("element {index} of the buffer {expected:04X} expected, {got:04X} got")
        }
        None => "no difference".to_string(),
    }
}
