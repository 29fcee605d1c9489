//! A cursor on one line.

use super::errors::{Error, Planted};

pub struct Cursor<'a> {
    pub planted: Planted,
    pub line: &'a [u8],
    pub at: usize,
    /// What lies behind the text, if this is its last line.
    pub behind: &'a [u8],
}

impl Cursor<'_> {
    fn byte(&self) -> Option<u8> {
        self.line.get(self.at).copied()
    }

    pub fn word(&mut self, word: &[u8]) -> Option<()> {
        let rest = &self.line[self.at..];
        let matches = rest.starts_with(word)
            || self.planted.has(Error::CaseIgnored)
                && rest.get(..word.len()).is_some_and(|begins| begins.eq_ignore_ascii_case(word));
        matches.then(|| self.at += word.len())
    }

    /// Any word, of one byte or more, up to the next space.
    pub fn any_word(&mut self) {
        while self.byte().is_some_and(|byte| byte != b' ') {
            self.at += 1;
        }
    }

    pub fn space(&mut self) -> Option<()> {
        let byte = self.byte()?;
        let is_space = byte == b' '
            || self.planted.has(Error::TabsSeparate) && byte == b'\t'
            || self.planted.has(Error::AnyByteSeparates) && !byte.is_ascii_alphanumeric();
        is_space.then(|| self.at += 1)?;
        while self.planted.has(Error::SpacesSeparate) && self.byte() == Some(b' ') {
            self.at += 1;
        }
        Some(())
    }

    pub fn number(&mut self) -> Option<u32> {
        if self.planted.has(Error::PlusPasses) && self.byte() == Some(b'+') {
            self.at += 1;
        }
        if self.planted.has(Error::MinusPasses) && self.byte() == Some(b'-') {
            self.at += 1;
        }
        let mut digits = Vec::new();
        while let Some(digit) = self.byte().and_then(|byte| self.digit(byte)) {
            digits.push(digit);
            self.at += 1;
        }
        if self.planted.has(Error::NumberRunsOnBehindTheText) && self.at == self.line.len() {
            digits.extend(self.behind.iter().map_while(|&byte| self.digit(byte)));
        }
        self.holds(&digits).then(|| self.value(&digits))
    }

    fn digit(&self, byte: u8) -> Option<u32> {
        let byte = if self.planted.has(Error::HighBitIgnored) { byte & 0x7f } else { byte };
        let is_digit = byte.is_ascii_digit()
            || self.planted.has(Error::ColonIsADigit) && byte == b':'
            || self.planted.has(Error::SlashIsADigit) && byte == b'/';
        is_digit.then(|| u32::from(byte).wrapping_sub(u32::from(b'0')))
    }

    fn holds(&self, digits: &[u32]) -> bool {
        let zeros = digits.iter().take_while(|&&digit| digit == 0).count();
        let most = match self.planted.0 {
            Some(Error::TenDigitsPass) => 10,
            Some(Error::AnyDigitsPass) => usize::MAX,
            Some(Error::NineDigitsRefused) => 8,
            _ => 9,
        };
        let counted = (1..=most).contains(&digits.len());
        match self.planted.0 {
            Some(Error::EmptyNumberIs0) => digits.len() <= most,
            Some(Error::DigitsIn8Bits) => (1..=most).contains(&(digits.len() % 256)),
            Some(Error::ZerosNotCounted) => !digits.is_empty() && digits.len() - zeros <= most,
            Some(Error::ZerosRefused) => counted && (zeros == 0 || digits.len() == 1),
            _ => counted,
        }
    }

    fn value(&self, digits: &[u32]) -> u32 {
        let octal = self.planted.has(Error::OctalNumbers) && digits.first() == Some(&0);
        let base: u32 = if octal { 8 } else { 10 };
        digits.iter().fold(0u32, |value, &digit| value.wrapping_mul(base).wrapping_add(digit))
    }

    /// The line ends here.
    pub fn end(&self, on_sizes: bool) -> Option<()> {
        let byte = self.byte();
        let passes = match self.planted.0 {
            Some(Error::MoreFieldsPass) => !on_sizes && byte == Some(b' '),
            Some(Error::MoreFieldsPassOnSizes) => on_sizes && byte == Some(b' '),
            Some(Error::MoreBytesPass) => !on_sizes,
            Some(Error::MoreBytesPassOnSizes) => on_sizes,
            _ => false,
        };
        (byte.is_none() || passes).then_some(())
    }
}
