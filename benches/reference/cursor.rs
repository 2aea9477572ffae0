//! A place in bytes, from which heads, numbers and texts of PackStream 1 are taken.

/// Bytes that stand for no value or no message, or a value that can't be written.
#[derive(Debug, Clone, Copy, PartialEq, Eq)]
pub struct Bad;

/// The bytes that are left.
#[derive(Clone, Copy)]
pub struct Cursor<'a> {
    pub left: &'a [u8],
}

impl<'a> Cursor<'a> {
    #[inline(always)]
    pub fn take(&mut self, count: usize) -> Result<&'a [u8], Bad> {
        let (taken, left) = self.left.split_at_checked(count).ok_or(Bad)?;
        self.left = left;
        Ok(taken)
    }

    #[inline(always)]
    pub fn byte(&mut self) -> Result<u8, Bad> {
        let (byte, left) = self.left.split_first().ok_or(Bad)?;
        self.left = left;
        Ok(*byte)
    }

    #[inline(always)]
    pub fn array<const N: usize>(&mut self) -> Result<[u8; N], Bad> {
        let (taken, left) = self.left.split_first_chunk::<N>().ok_or(Bad)?;
        self.left = left;
        Ok(*taken)
    }

    /// A length of one, two or four bytes, by how far its marker is from the first of its kind.
    #[inline]
    pub fn size(&mut self, width: u8) -> Result<usize, Bad> {
        Ok(match width {
            0 => self.byte()? as usize,
            1 => u16::from_be_bytes(self.array()?) as usize,
            _ => u32::from_be_bytes(self.array()?) as usize,
        })
    }

    /// A text whose marker was read.
    #[inline]
    pub fn text_of(&mut self, marker: u8) -> Result<&'a str, Bad> {
        let length = match marker {
            0x80..=0x8F => (marker & 15) as usize,
            0xD0..=0xD2 => self.size(marker - 0xD0)?,
            _ => return Err(Bad),
        };
        std::str::from_utf8(self.take(length)?).map_err(|_| Bad)
    }

    #[inline]
    pub fn text(&mut self) -> Result<&'a str, Bad> {
        let marker = self.byte()?;
        self.text_of(marker)
    }

    /// The count of a list, by its head.
    #[inline]
    pub fn list_head(&mut self) -> Result<usize, Bad> {
        match self.byte()? {
            marker @ 0x90..=0x9F => Ok((marker & 15) as usize),
            marker @ 0xD4..=0xD6 => self.size(marker - 0xD4),
            _ => Err(Bad),
        }
    }

    /// The count of a dictionary, by its head.
    #[inline]
    pub fn dict_head(&mut self) -> Result<usize, Bad> {
        match self.byte()? {
            marker @ 0xA0..=0xAF => Ok((marker & 15) as usize),
            marker @ 0xD8..=0xDA => self.size(marker - 0xD8),
            _ => Err(Bad),
        }
    }
}
