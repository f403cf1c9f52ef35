// The wire form of a call and of an answer (docs/CALLS.md), as bytes low byte first, written and
// read. It does not know what a kind of call means and starts no program.

/// Bytes of the eight numbers that begin a call.
pub const CALL_HEADER: usize = 32;
/// Bytes of the four numbers that begin an answer.
pub const ANSWER_HEADER: usize = 16;
/// The wire form's bounds; a call over one of them ends the program.
pub const MOST_ELEMENTS: u32 = 20_000;
pub const MOST_IMAGE_BYTES: u32 = 66_000;
pub const MOST_ROOM: u32 = 120_000;

/// An element is a byte, a unit of 16 bits, or a number of 32 bits (a code point).
#[derive(Clone, Copy, Debug, PartialEq, Eq)]
pub enum Width {
    Byte,
    Unit,
    Number,
}

impl Width {
    pub fn bytes(self) -> usize {
        match self {
            Width::Byte => 1,
            Width::Unit => 2,
            Width::Number => 4,
        }
    }

    /// What an element of the lent buffer is where the call wrote nothing.
    pub fn untouched(self) -> u32 {
        match self {
            Width::Byte => 0xA5,
            Width::Unit => 0xA5A5,
            Width::Number => 0xA5A5_A5A5,
        }
    }
}

/// What the elements of a kind's call and answer are.
#[derive(Clone, Copy, Debug)]
pub struct Shape {
    pub a: Width,
    /// None where the kind takes no elements of b: a call that has some ends the program.
    pub b: Option<Width>,
    pub lent: Width,
    /// a is a file image, which has a larger bound.
    pub image: bool,
    /// The answer ends with the image and not with the lent buffer.
    pub returns_image: bool,
}

impl Shape {
    /// Code points in, code points out; also right for calls without elements.
    pub const CODES: Shape = Shape {
        a: Width::Number,
        b: None,
        lent: Width::Number,
        image: false,
        returns_image: false,
    };

    /// Bytes in, code points out.
    pub const BYTES_TO_CODES: Shape = Shape {
        a: Width::Byte,
        ..Shape::CODES
    };

    /// Bytes in, bytes out.
    pub const BYTES: Shape = Shape {
        lent: Width::Byte,
        ..Shape::BYTES_TO_CODES
    };

    /// Code points in, bytes out.
    pub const CODES_TO_BYTES: Shape = Shape {
        lent: Width::Byte,
        ..Shape::CODES
    };

    /// Units in, code points out.
    pub const UNITS_TO_CODES: Shape = Shape {
        a: Width::Unit,
        ..Shape::CODES
    };

    /// Code points in, units out.
    pub const CODES_TO_UNITS: Shape = Shape {
        lent: Width::Unit,
        ..Shape::CODES
    };

    /// Units in, units out.
    pub const UNITS: Shape = Shape {
        lent: Width::Unit,
        ..Shape::UNITS_TO_CODES
    };

    /// Two texts in, of code points.
    pub const TWO_TEXTS: Shape = Shape {
        b: Some(Width::Number),
        ..Shape::CODES
    };

    /// Two texts in, of bytes.
    pub const TWO_TEXTS_OF_BYTES: Shape = Shape {
        b: Some(Width::Byte),
        ..Shape::BYTES
    };

    /// A file image in, bytes out.
    pub const IMAGE: Shape = Shape {
        image: true,
        ..Shape::BYTES
    };

    /// A file image in, numbers out.
    pub const IMAGE_TO_NUMBERS: Shape = Shape {
        lent: Width::Number,
        ..Shape::IMAGE
    };

    /// A file image and a text of bytes in, the image out.
    pub const IMAGE_AND_TEXT: Shape = Shape {
        b: Some(Width::Byte),
        returns_image: true,
        ..Shape::IMAGE
    };

    pub fn most_of_a(&self) -> u32 {
        if self.image {
            MOST_IMAGE_BYTES
        } else {
            MOST_ELEMENTS
        }
    }

    pub fn most_of_b(&self) -> u32 {
        self.b.map_or(0, |_| MOST_ELEMENTS)
    }

    fn returned_elements(&self, call: &Call) -> usize {
        if self.returns_image {
            call.a.len()
        } else {
            call.room as usize
        }
    }

    /// The bytes of the answer: they depend on the call alone, also when refused.
    pub fn answer_bytes(&self, call: &Call) -> usize {
        ANSWER_HEADER + self.returned_elements(call) * self.lent.bytes()
    }
}

#[derive(Clone, Debug, Default, PartialEq, Eq)]
pub struct Call {
    pub kind: u32,
    pub x: u32,
    pub y: u32,
    pub z: u32,
    pub w: u32,
    pub room: u32,
    pub a: Vec<u32>,
    pub b: Vec<u32>,
}

#[derive(Clone, Debug, Default, PartialEq, Eq)]
pub struct Answer {
    pub refusal: u32,
    pub value: u32,
    pub second: u32,
    pub third: u32,
    pub lent: Vec<u32>,
}

impl Call {
    pub fn header(&self) -> [u32; 8] {
        let (na, nb) = (self.a.len() as u32, self.b.len() as u32);
        [self.kind, self.x, self.y, self.z, self.w, self.room, na, nb]
    }
}

/// A code unit: a byte of UTF-8, or 16 bits of UTF-16.
pub trait CodeUnit: Copy + From<u8> + Into<u32> + TryFrom<u32> {}

impl CodeUnit for u8 {}
impl CodeUnit for u16 {}

/// The elements that code units are on the wire of a kind that takes them.
pub fn elements_of<Unit: CodeUnit>(units: &[Unit]) -> Vec<u32> {
    units.iter().copied().map(Unit::into).collect()
}

/// The code units that such elements stand for.
pub fn units_of<Unit: CodeUnit>(elements: &[u32]) -> Vec<Unit> {
    let unit = |&element| Unit::try_from(element).ok();
    let units = elements.iter().map(unit).collect::<Option<Vec<Unit>>>();
    units.expect("an element is one code unit")
}

pub fn bytes_of(elements: &[u32]) -> Vec<u8> {
    units_of(elements)
}

pub fn put_number(number: u32, bytes: &mut Vec<u8>) {
    bytes.extend_from_slice(&number.to_le_bytes());
}

fn put_elements(elements: &[u32], width: Width, bytes: &mut Vec<u8>) {
    for &element in elements {
        match width {
            Width::Byte => bytes.push(element as u8),
            Width::Unit => bytes.extend_from_slice(&(element as u16).to_le_bytes()),
            Width::Number => put_number(element, bytes),
        }
    }
}

pub fn put_call(call: &Call, shape: &Shape, bytes: &mut Vec<u8>) {
    for number in call.header() {
        put_number(number, bytes);
    }
    put_elements(&call.a, shape.a, bytes);
    if let Some(width) = shape.b {
        put_elements(&call.b, width, bytes);
    }
}

pub fn put_answer(answer: &Answer, shape: &Shape, bytes: &mut Vec<u8>) {
    for number in [answer.refusal, answer.value, answer.second, answer.third] {
        put_number(number, bytes);
    }
    put_elements(&answer.lent, shape.lent, bytes);
}

/// Takes bytes from the front of a slice; None where too few are left.
pub struct Cursor<'bytes> {
    bytes: &'bytes [u8],
}

impl<'bytes> Cursor<'bytes> {
    pub fn new(bytes: &'bytes [u8]) -> Cursor<'bytes> {
        Cursor { bytes }
    }

    pub fn is_empty(&self) -> bool {
        self.bytes.is_empty()
    }

    pub fn left(&self) -> usize {
        self.bytes.len()
    }

    pub fn number(&mut self) -> Option<u32> {
        let elements = self.elements(1, Width::Number)?;
        elements.first().copied()
    }

    pub fn elements(&mut self, count: usize, width: Width) -> Option<Vec<u32>> {
        let length = count.checked_mul(width.bytes())?;
        if length > self.bytes.len() {
            return None;
        }
        let (front, rest) = self.bytes.split_at(length);
        self.bytes = rest;
        Some(
            front
                .chunks_exact(width.bytes())
                .map(low_byte_first)
                .collect(),
        )
    }
}

fn low_byte_first(bytes: &[u8]) -> u32 {
    bytes
        .iter()
        .rev()
        .fold(0, |number, &byte| (number << 8) | u32::from(byte))
}

/// Reads one call. The shape is asked for by kind, since it rules the elements.
pub fn get_call(cursor: &mut Cursor, shape_of: impl Fn(u32) -> Option<Shape>) -> Option<Call> {
    let mut header = [0; 8];
    for number in &mut header {
        *number = cursor.number()?;
    }
    let [kind, x, y, z, w, room, na, nb] = header;
    let shape = shape_of(kind)?;
    let a = cursor.elements(na as usize, shape.a)?;
    let b = match shape.b {
        Some(width) => cursor.elements(nb as usize, width)?,
        None if nb == 0 => Vec::new(),
        None => return None,
    };
    Some(Call {
        kind,
        x,
        y,
        z,
        w,
        room,
        a,
        b,
    })
}

/// Reads the answer to a call; the call tells how long it is.
pub fn get_answer(cursor: &mut Cursor, call: &Call, shape: &Shape) -> Option<Answer> {
    let refusal = cursor.number()?;
    let value = cursor.number()?;
    let second = cursor.number()?;
    let third = cursor.number()?;
    let lent = cursor.elements(shape.returned_elements(call), shape.lent)?;
    Some(Answer {
        refusal,
        value,
        second,
        third,
        lent,
    })
}
