//! Data types and their widths (002).

/// The eleven data types of 002 (LK, a link, is none of them).
#[derive(Clone, Copy, Debug, PartialEq, Eq)]
pub enum DataType {
    MT,
    C1,
    B1,
    I4,
    U4,
    R4,
    I8,
    U8,
    R8,
    X4,
    X8,
}

impl DataType {
    /// The data type that two bytes name.
    pub fn named(code: [u8; 2]) -> Option<DataType> {
        Some(match &code {
            b"MT" => DataType::MT,
            b"C1" => DataType::C1,
            b"B1" => DataType::B1,
            b"I4" => DataType::I4,
            b"U4" => DataType::U4,
            b"R4" => DataType::R4,
            b"I8" => DataType::I8,
            b"U8" => DataType::U8,
            b"R8" => DataType::R8,
            b"X4" => DataType::X4,
            b"X8" => DataType::X8,
            _ => return None,
        })
    }

    /// Bytes of one value.
    pub fn width(self) -> usize {
        match self {
            DataType::MT => 0,
            DataType::C1 | DataType::B1 => 1,
            DataType::I4 | DataType::U4 | DataType::R4 => 4,
            DataType::I8 | DataType::U8 | DataType::R8 | DataType::X4 => 8,
            DataType::X8 => 16,
        }
    }

    /// Whether it is I4 or I8.
    pub fn is_integer(self) -> bool {
        matches!(self, DataType::I4 | DataType::I8)
    }
}
