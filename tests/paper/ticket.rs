//! The ticket: its lines, their values, and the first wrong one (SCOPE 9.1 to 9.3).

use super::readings::Quantity;
use super::settings::Formula;

/// SCOPE 9.1: at most so many bytes.
pub const LONGEST_TICKET: usize = 4_096;

/// SCOPE 9.1: l and c, in thousandths, where their lines are missing.
pub const MISSING: [u64; 2] = [2_000, 1_000];

#[derive(Clone, Copy, PartialEq, Eq, Debug)]
pub enum Space {
    Xyz,
    Lab,
}

impl Space {
    pub fn quantities(self) -> [Quantity; 3] {
        match self {
            Space::Xyz => [Quantity::Tristimulus; 3],
            Space::Lab => [Quantity::Lightness, Quantity::Opponent, Quantity::Opponent],
        }
    }
}

/// A number of ref or test: its exact value.
#[derive(Clone, Copy, PartialEq, Eq, Debug)]
pub struct Decimal {
    pub minus: bool,
    pub millionths: u64,
}

/// What a text says, in range or not. White is 1 to 4; l, c and the tolerance are thousandths.
#[derive(Clone, Copy, PartialEq, Eq, Debug)]
pub struct Ticket {
    pub formula: Formula,
    pub white: u32,
    pub l: u64,
    pub c: u64,
    pub tolerance: u64,
    pub space: Space,
    pub reference: [Decimal; 3],
    pub test: [Decimal; 3],
}

/// SCOPE 9.2: CIELAB, CIE94 or CMC.
pub const FORMULAS: [(Formula, &str); 3] = [
    (Formula::Cielab, "CIELAB"),
    (Formula::Cie94, "CIE94"),
    (Formula::Cmc, "CMC"),
];

/// SCOPE 9.2: a name of SCOPE 4.
pub const WHITES: [(u32, &str); 4] = [(1, "D65/10"), (2, "D65/2"), (3, "C/10"), (4, "C/2")];

/// SCOPE 9.2: XYZ or LAB.
pub const SPACES: [(Space, &str); 2] = [(Space::Xyz, "XYZ"), (Space::Lab, "LAB")];

/// What stands beside this word in a table.
fn named<T: Copy>(table: &[(T, &str)], word: &[u8]) -> Option<T> {
    let (value, _) = table.iter().find(|(_, name)| name.as_bytes() == word)?;
    Some(*value)
}

/// From 1 to so many digits, then perhaps a point and from 1 to so many digits after it. The value in
/// units of the last place.
fn decimal(text: &[u8], before: usize, after: usize) -> Option<u64> {
    let (whole, decimals) = match text.iter().position(|&byte| byte == b'.') {
        None => (text, None),
        Some(point) => (&text[..point], Some(&text[point + 1..])),
    };
    let digits = |part: &[u8], most: usize| {
        (1..=most).contains(&part.len()) && part.iter().all(u8::is_ascii_digit)
    };
    if !digits(whole, before) || !decimals.map_or(true, |part| digits(part, after)) {
        return None;
    }
    // places that are not written hold 0
    let decimals = decimals
        .unwrap_or(b"")
        .iter()
        .chain(std::iter::repeat(&b'0'));
    let all = whole.iter().chain(decimals.take(after));
    Some(all.fold(0, |value, digit| 10 * value + u64::from(digit - b'0')))
}

/// SCOPE 9.2: l, c, tol: 1 or 2 digits, then perhaps a point and 1 to 3 digits.
fn thousandths(text: &[u8]) -> Option<u64> {
    decimal(text, 2, 3)
}

/// SCOPE 9.2: perhaps a minus, 1 to 3 digits, perhaps a point and 1 to 6 digits.
fn number(text: &[u8]) -> Option<Decimal> {
    let (minus, magnitude) = match text.strip_prefix(b"-") {
        None => (false, text),
        Some(magnitude) => (true, magnitude),
    };
    let millionths = decimal(magnitude, 3, 6)?;
    Some(Decimal { minus, millionths })
}

/// SCOPE 9.2: three numbers, one space between.
fn three_numbers(text: &[u8]) -> Option<[Decimal; 3]> {
    let numbers = text.split(|&byte| byte == b' ').map(number);
    numbers.collect::<Option<Vec<_>>>()?.try_into().ok()
}

/// The lines of a text, one after the other.
struct Lines<'a> {
    rest: &'a [u8],
    taken: usize,
}

impl Lines<'_> {
    /// Takes the next line, which has to be this key with a value that can be read. Otherwise it is
    /// the wrong one, and its number is answered. SCOPE 9.3: a text that stops early is wrong at the
    /// line that is missing; a line without its LF is wrong itself.
    fn value<T>(&mut self, key: &str, read: impl Fn(&[u8]) -> Option<T>) -> Result<T, usize> {
        self.taken += 1;
        let end = self.rest.iter().position(|&byte| byte == b'\n');
        let line = &self.rest[..end.ok_or(self.taken)?];
        self.rest = &self.rest[line.len() + 1..];
        let value = line.strip_prefix(key.as_bytes());
        let value = value.and_then(|value| value.strip_prefix(b"="));
        value.and_then(read).ok_or(self.taken)
    }
}

/// SCOPE 9.3: the ticket, or the number of its first wrong line.
pub fn parse(text: &[u8]) -> Result<Ticket, usize> {
    // "one over 4,096 bytes is wrong at line 0"
    if text.len() > LONGEST_TICKET {
        return Err(0);
    }
    let mut lines = Lines {
        rest: text,
        taken: 0,
    };
    let formula = lines.value("formula", |word| named(&FORMULAS, word))?;
    let white = lines.value("white", |word| named(&WHITES, word))?;
    // "The lines l and c may both be missing; a line 3 that starts with tol= says that they are."
    let [l, c] = if lines.rest.starts_with(b"tol=") {
        MISSING
    } else {
        [
            lines.value("l", thousandths)?,
            lines.value("c", thousandths)?,
        ]
    };
    let tolerance = lines.value("tol", thousandths)?;
    let space = lines.value("space", |word| named(&SPACES, word))?;
    let reference = lines.value("ref", three_numbers)?;
    let test = lines.value("test", three_numbers)?;
    // "text after the test line is wrong at the next line"
    if !lines.rest.is_empty() {
        return Err(lines.taken + 1);
    }
    Ok(Ticket {
        formula,
        white,
        l,
        c,
        tolerance,
        space,
        reference,
        test,
    })
}
