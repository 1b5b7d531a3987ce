//! One command with its numbers, read from a record's fields.

use oracle::space::Space;

/// Places for the numbers of any command: a box in space has six.
const NUMBERS: usize = 6;

pub enum Word {
    Create,
    Insert,
    Delete,
    Contains,
    Range,
    Nearest,
    InBox,
    Len,
    Clear,
}

pub struct Command {
    pub word: Word,
    pub floats: [f64; NUMBERS],
    pub whole: u32,
}

impl Command {
    /// The command that a record says to this program, if it says one.
    pub fn read<S: Space>(line: &[u8]) -> Option<Command> {
        let mut fields = line.split(|byte| *byte == b',');
        let (word, floats, whole) = match fields.next()? {
            b"insert" => (Word::Insert, S::AXES, true),
            b"delete" => (Word::Delete, S::AXES, true),
            b"contains" => (Word::Contains, S::AXES, true),
            b"range" => (Word::Range, S::AXES + 1, false),
            b"knn" => (Word::Nearest, S::AXES, true),
            b"box" => (Word::InBox, 2 * S::AXES, false),
            b"len" => (Word::Len, 0, false),
            b"clear" => (Word::Clear, 0, false),
            word if word == S::WORD.as_bytes() => (Word::Create, 2 * S::AXES, true),
            _ => return None,
        };
        let mut command = Command { word, floats: [0.0; NUMBERS], whole: 0 };
        for place in &mut command.floats[..floats] {
            *place = float(fields.next()?)?;
        }
        if whole {
            command.whole = whole_number(fields.next()?)?;
        }
        fields.next().is_none().then_some(command)
    }
}

/// "Floats are 16 upper-case hex digits of their binary64 bits."
fn float(field: &[u8]) -> Option<f64> {
    let digits: &[u8; 16] = field.try_into().ok()?;
    let mut bits = 0;
    for byte in digits {
        let digit = match byte {
            b'0'..=b'9' => byte - b'0',
            b'A'..=b'F' => byte - b'A' + 10,
            _ => return None,
        };
        bits = bits << 4 | u64::from(digit);
    }
    Some(f64::from_bits(bits))
}

/// "Whole numbers are decimal, no leading zero except 0 itself, at most 4294967295."
fn whole_number(field: &[u8]) -> Option<u32> {
    if field.is_empty() || field.len() > 10 || (field[0] == b'0' && field.len() > 1) {
        return None;
    }
    let mut number = 0;
    for byte in field {
        if !byte.is_ascii_digit() {
            return None;
        }
        number = 10 * number + u64::from(byte - b'0');
    }
    number.try_into().ok()
}
