//! The parts of a line, and the forms that answers have.
use std::fmt::Write;
use tuppenceowl::Refusal;

/// Words that tabs part.
pub struct Line<'a>(Vec<&'a [u8]>);

impl<'a> Line<'a> {
    pub fn new(line: &'a [u8]) -> Self {
        Line(line.split(|&b| b == b'\t').collect())
    }

    pub fn word(&self) -> &'a [u8] {
        self.0[0]
    }

    /// Nothing unless the line has so many words.
    pub fn of(&self, words: usize) -> Option<&Self> {
        (self.0.len() == words).then_some(self)
    }

    pub fn text(&self, k: usize) -> &'a [u8] {
        self.0.get(k).copied().unwrap_or_default()
    }

    /// At most nine decimal digits.
    pub fn number(&self, k: usize) -> Option<usize> {
        let text = self.text(k);
        let fits = text.len() <= 9 && text.iter().all(u8::is_ascii_digit);
        std::str::from_utf8(text)
            .ok()
            .filter(|_| fits)?
            .parse()
            .ok()
    }

    pub fn short(&self, k: usize) -> Option<u16> {
        self.number(k)?.try_into().ok()
    }

    /// Lower-case hex, no more bytes than there is room for.
    pub fn hex(&self, k: usize, room: usize) -> Option<Vec<u8>> {
        let digits: Option<Vec<u8>> = self.text(k).iter().map(|&c| digit(c)).collect();
        let (pairs, rest) = digits.as_ref()?.as_chunks::<2>();
        let bytes: Vec<u8> = pairs.iter().map(|[high, low]| high << 4 | low).collect();
        (rest.is_empty() && bytes.len() <= room).then_some(bytes)
    }

    /// Ids of two bytes each, the first 64 of them.
    pub fn ids(&self, k: usize) -> Option<Vec<u16>> {
        let bytes = self.hex(k, ROOM)?;
        let (pairs, _) = bytes.as_chunks::<2>();
        Some(
            pairs
                .iter()
                .take(64)
                .map(|&p| u16::from_le_bytes(p))
                .collect(),
        )
    }
}

/// Bytes of a layout or a record in a line.
pub const ROOM: usize = 32768;

fn digit(c: u8) -> Option<u8> {
    match c {
        b'0'..=b'9' => Some(c - b'0'),
        b'a'..=b'f' => Some(c - b'a' + 10),
        _ => None,
    }
}

/// The part from `at` on, empty where it does not lie inside.
pub fn part(bytes: &[u8], at: usize, n: usize) -> &[u8] {
    bytes.get(at..at + n).unwrap_or_default()
}

// ---- answers

pub fn octets(bytes: &[u8]) -> String {
    bytes.iter().fold(String::new(), |mut text, b| {
        write!(text, "{b:02x}").expect("a string takes all");
        text
    })
}

pub fn refused(refusal: Refusal) -> String {
    format!("r{}", refusal.number())
}

/// `ok`, or the refusal.
pub fn fine(answer: Result<(), Refusal>) -> String {
    told(answer, |()| "ok".into())
}

pub fn told<T>(answer: Result<T, Refusal>, text: impl FnOnce(T) -> String) -> String {
    answer.map_or_else(refused, text)
}

/// The same where there may be none.
pub fn perhaps<T>(answer: Result<Option<T>, Refusal>, text: impl FnOnce(T) -> String) -> String {
    told(answer, |found| found.map_or_else(|| "none".into(), text))
}
