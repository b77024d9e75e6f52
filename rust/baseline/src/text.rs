//! A text that is read byte by byte, each byte once.

/// The longest text, in bytes.
pub const MAX_TEXT: usize = 32_768;

/// The most digits of a number.
const MAX_DIGITS: usize = 12;

/// Number and place.
pub type Refusal = (u64, u64);

/// The part of a text that is not read yet.
pub struct Text<'a> {
    rest: &'a [u8],
}

impl<'a> Text<'a> {
    pub fn new(bytes: &'a [u8]) -> Text<'a> {
        Text { rest: bytes }
    }

    /// Whether all of the text is read.
    pub fn is_read(&self) -> bool {
        self.rest.is_empty()
    }

    /// A byte that is not read yet, by its distance from the next one; it stays unread.
    pub fn peek(&self, distance: usize) -> Option<u8> {
        self.rest.get(distance).copied()
    }

    /// Reads these bytes; None where others follow.
    pub fn literal<const N: usize>(&mut self, bytes: &[u8; N]) -> Option<()> {
        self.rest = self.rest.strip_prefix(bytes)?;
        Some(())
    }

    /// Reads a digit; None where none follows.
    fn digit(&mut self) -> Option<u64> {
        let (first, rest) = self.rest.split_first()?;
        let digit = first.wrapping_sub(b'0');
        if digit > 9 {
            return None;
        }
        self.rest = rest;
        Some(u64::from(digit))
    }

    /// Reads a number; None where no digit follows. A 0 is a number by itself, and a number ends behind its last possible digit, so a
    /// leading zero or a digit too many leaves a digit where none can follow.
    pub fn number(&mut self) -> Option<u64> {
        let mut value = self.digit()?;
        if value == 0 {
            return Some(0);
        }
        for _ in 1..MAX_DIGITS {
            let Some(digit) = self.digit() else {
                break;
            };
            value = 10 * value + digit;
        }
        Some(value)
    }

    /// Reads a number behind these bytes.
    pub fn number_behind<const N: usize>(&mut self, bytes: &[u8; N]) -> Option<u64> {
        self.literal(bytes)?;
        self.number()
    }
}

#[cfg(test)]
mod tests {
    use super::*;

    /// A number between two brackets.
    fn bracketed(text: &[u8]) -> Option<u64> {
        let mut text = Text::new(text);
        let number = text.number_behind(b"(")?;
        text.literal(b")")?;
        text.is_read().then_some(number)
    }

    #[test]
    fn numbers() {
        assert_eq!(bracketed(b"(0)"), Some(0));
        assert_eq!(bracketed(b"(70)"), Some(70));
        assert_eq!(bracketed(b"(999999999999)"), Some(999_999_999_999));
        let none: [&[u8]; 11] = [
            b"()",
            b"(",
            b"(7",
            b"(07)",
            b"(00)",
            b"(1000000000000)",
            b"(18446744073709551617)",
            b"(7 )",
            b"(/)",
            b"(:)",
            b"(1:)",
        ];
        for text in none {
            assert_eq!(bracketed(text), None);
        }
    }
}
