//! Little-endian numbers at a byte offset, and a view of bytes as signed integers of one width.

/// The two bytes at `at` as an unsigned number; the caller knows that they are there.
pub fn u16_at(bytes: &[u8], at: usize) -> u16 {
    u16::from_le_bytes([bytes[at], bytes[at + 1]])
}

/// The four bytes at `at` as an unsigned number; the caller knows that they are there.
pub fn u32_at(bytes: &[u8], at: usize) -> u32 {
    u32::from_le_bytes(bytes[at..at + 4].try_into().unwrap())
}

/// The eight bytes at `at` as an unsigned number; the caller knows that they are there.
pub fn u64_at(bytes: &[u8], at: usize) -> u64 {
    u64::from_le_bytes(bytes[at..at + 8].try_into().unwrap())
}

/// The `width` bytes (4 or 8) at `at` as a signed number; the caller knows that they are there.
pub fn signed_at(bytes: &[u8], at: usize, width: usize) -> i64 {
    match width {
        4 => i64::from(u32_at(bytes, at) as i32),
        _ => u64_at(bytes, at) as i64,
    }
}

/// Bytes seen as signed integers of 4 or 8 bytes each.
#[derive(Clone, Copy, Debug)]
pub struct Integers<'a> {
    bytes: &'a [u8],
    width: usize,
}

impl<'a> Integers<'a> {
    /// No integers at all; its width is 0.
    pub const NONE: Integers<'static> = Integers { bytes: &[], width: 0 };

    /// The integers of `width` 4 or 8 in `bytes`; none for another width.
    pub fn new(bytes: &'a [u8], width: usize) -> Integers<'a> {
        match width {
            4 | 8 => Integers { bytes, width },
            _ => Integers::NONE,
        }
    }

    /// How many integers there are.
    pub fn len(&self) -> usize {
        self.bytes.len().checked_div(self.width).unwrap_or(0)
    }

    /// Whether there are none.
    pub fn is_empty(&self) -> bool {
        self.len() == 0
    }

    /// The width of each in bytes: 4 or 8, or 0 when there are none.
    pub fn width(&self) -> usize {
        self.width
    }

    /// The integer at `index`, counted from 0.
    pub fn get(&self, index: usize) -> Option<i64> {
        (index < self.len()).then(|| signed_at(self.bytes, index * self.width, self.width))
    }

    /// The integers from one index up to another, counted from 0; nothing where these are not there.
    pub fn part(&self, start: usize, end: usize) -> Option<Integers<'a>> {
        let bytes = self.bytes.get(start.checked_mul(self.width)?..end.checked_mul(self.width)?)?;
        Some(Integers { bytes, ..*self })
    }

    /// The last integer.
    pub fn last(&self) -> Option<i64> {
        self.len().checked_sub(1).and_then(|k| self.get(k))
    }

    /// Whether `test` holds for each, asked in order up to the first that fails.
    pub fn all(&self, mut test: impl FnMut(i64) -> bool) -> bool {
        match self.width {
            4 => self.bytes.chunks_exact(4).all(|c| test(i64::from(i32::from_le_bytes(c.try_into().unwrap())))),
            8 => self.bytes.chunks_exact(8).all(|c| test(i64::from_le_bytes(c.try_into().unwrap()))),
            _ => true,
        }
    }

    /// What `found` answers for the first integer for which it answers something, with that integer's index, counted
    /// from 0.
    pub fn find<T>(&self, found: impl Fn(i64) -> Option<T>) -> Option<(usize, T)> {
        let (mut index, mut answer) = (0, None);
        self.all(|number| {
            answer = found(number);
            index += usize::from(answer.is_none());
            answer.is_none()
        });
        answer.map(|answer| (index, answer))
    }
}
