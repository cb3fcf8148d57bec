//! What a cell holds.

use crate::raw;
use std::fmt;
use std::ops::Deref;

/// The most bytes of a value.
pub const VALUE_BYTES: usize = 48;

const ABSENT: u8 = 255;

/// What a cell holds: nothing, or a value.
pub type Image = Option<Value>;

/// A value of 0 to 48 bytes.
#[derive(Clone, Copy)]
pub struct Value {
    length: u8,
    bytes: [u8; VALUE_BYTES],
}

impl Value {
    /// None for more than 48 bytes.
    pub fn new(value: &[u8]) -> Option<Self> {
        let mut bytes = [0; VALUE_BYTES];
        bytes.get_mut(..value.len())?.copy_from_slice(value);
        Some(Self {
            length: value.len() as u8,
            bytes,
        })
    }
}

impl Deref for Value {
    type Target = [u8];

    fn deref(&self) -> &[u8] {
        &self.bytes[..usize::from(self.length)]
    }
}

impl PartialEq for Value {
    fn eq(&self, other: &Self) -> bool {
        **self == **other
    }
}

impl Eq for Value {}

impl fmt::Debug for Value {
    fn fmt(&self, f: &mut fmt::Formatter<'_>) -> fmt::Result {
        write!(f, "\"{}\"", self.escape_ascii())
    }
}

pub(crate) fn to_raw(image: &Image) -> raw::Image {
    match image {
        None => raw::Image {
            length: ABSENT,
            bytes: [0; VALUE_BYTES],
        },
        Some(value) => raw::Image {
            length: value.length,
            bytes: value.bytes,
        },
    }
}

pub(crate) fn from_raw(image: &raw::Image) -> Image {
    image
        .bytes
        .get(..usize::from(image.length))
        .and_then(Value::new)
}
