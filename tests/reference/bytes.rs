//! Bytes read from front to back, and lengths in their shortest form.

/// What is left to be read. Each reader answers `None` where the bytes do not go on as it asks.
pub struct Reader<'a> {
    left: &'a [u8],
}

impl<'a> Reader<'a> {
    pub fn new(bytes: &'a [u8]) -> Reader<'a> {
        Reader { left: bytes }
    }

    pub fn take(&mut self, count: usize) -> Option<&'a [u8]> {
        let (head, tail) = self.left.split_at_checked(count)?;
        self.left = tail;
        Some(head)
    }

    pub fn array<const N: usize>(&mut self) -> Option<[u8; N]> {
        self.take(N)?.try_into().ok()
    }

    pub fn byte(&mut self) -> Option<u8> {
        self.array().map(|[byte]| byte)
    }

    pub fn number16(&mut self) -> Option<u16> {
        self.array().map(u16::from_be_bytes)
    }

    pub fn number32(&mut self) -> Option<u32> {
        self.array().map(u32::from_be_bytes)
    }

    /// These very bytes.
    pub fn fixed(&mut self, expected: &[u8]) -> Option<()> {
        (self.take(expected.len())? == expected).then_some(())
    }

    /// A length or count, refused where a shorter form would have held it.
    pub fn length(&mut self) -> Option<usize> {
        let before = self.left;
        let value = match self.byte()? {
            short @ 0..=0x7F => short.into(),
            0x81 => self.byte()?.into(),
            0x82 => self.number16()?.into(),
            _ => return None,
        };
        let written = before.len() - self.left.len();
        (before[..written] == shortest_length(value)).then_some(value)
    }

    /// A tag, a length and a part of that length.
    pub fn part(&mut self, tag: u8) -> Option<&'a [u8]> {
        self.fixed(&[tag])?;
        let length = self.length()?;
        self.take(length)
    }

    /// All that is left.
    pub fn rest(self) -> &'a [u8] {
        self.left
    }

    /// Nothing is left.
    pub fn end(self) -> Option<()> {
        self.left.is_empty().then_some(())
    }
}

/// A length in its shortest form.
pub fn shortest_length(length: usize) -> Vec<u8> {
    match length {
        0..=0x7F => vec![length as u8],
        0x80..=0xFF => vec![0x81, length as u8],
        _ => vec![0x82, (length >> 8) as u8, length as u8],
    }
}

/// A tag, the length of the content and the content.
pub fn part(tag: u8, content: &[u8]) -> Vec<u8> {
    [&[tag], &shortest_length(content.len())[..], content].concat()
}
