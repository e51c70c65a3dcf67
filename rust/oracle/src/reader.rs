//! Bytes of a layout, taken from the left.

pub struct Reader<'a> {
    whole: &'a [u8],
    at: usize,
}

impl<'a> Reader<'a> {
    pub fn new(whole: &'a [u8]) -> Self {
        Reader { whole, at: 0 }
    }

    /// The place of the next byte.
    pub fn at(&self) -> usize {
        self.at
    }

    pub fn is_empty(&self) -> bool {
        self.at == self.whole.len()
    }

    pub fn take(&mut self, n: usize) -> Option<&'a [u8]> {
        let taken = self.whole.get(self.at..self.at.checked_add(n)?)?;
        self.at += n;
        Some(taken)
    }

    pub fn byte(&mut self) -> Option<u8> {
        Some(self.take(1)?[0])
    }

    /// 8 bits, as a length.
    pub fn short(&mut self) -> Option<usize> {
        Some(usize::from(self.byte()?))
    }

    /// 16 bits, low byte first.
    pub fn word(&mut self) -> Option<usize> {
        let pair = self.take(2)?;
        Some(usize::from(u16::from_le_bytes([pair[0], pair[1]])))
    }
}
