//! Pages of a store.

use crate::error::{checked, Error};
use crate::image::{self, Image};
use crate::raw;

/// The most pages of a store.
pub const PAGES: u32 = 4096;
/// The cells of a page.
pub const SLOTS: usize = 16;
/// The bytes of a page's image.
pub const PAGE_BYTES: usize = 1024;

/// A page: what its cells hold, and the LSN of the last record in them (PageLSN).
#[derive(Clone, Debug, PartialEq, Eq)]
pub struct Page {
    pub number: u32,
    pub lsn: u64,
    pub slots: [Image; SLOTS],
}

impl Page {
    /// The page of this number that holds nothing, with PageLSN 0.
    pub fn empty(number: u32) -> Self {
        Self {
            number,
            lsn: 0,
            slots: [None; SLOTS],
        }
    }

    /// Its image, as it stands in a store.
    ///
    /// # Errors
    /// None is expected: each page of this type has an image.
    pub fn image(&self) -> Result<[u8; PAGE_BYTES], Error> {
        let slots = self.slots.map(|slot| image::to_raw(&slot));
        let page = raw::Page {
            lsn: self.lsn,
            number: self.number,
            slots,
        };
        let (mut out, mut length) = ([0; PAGE_BYTES], 0);
        // SAFETY: a struct as declared, and a buffer with its length.
        checked(unsafe { raw::aries_write_page(&page, out.as_mut_ptr(), out.len(), &mut length) })?;
        Ok(out)
    }

    /// The page of this number, from its image.
    ///
    /// # Errors
    /// `BadPage`: the bytes are no image of that page.
    pub fn read(image: &[u8], number: u32) -> Result<Self, Error> {
        let absent = image::to_raw(&None);
        let mut page = raw::Page {
            lsn: 0,
            number: 0,
            slots: [absent; SLOTS],
        };
        // SAFETY: a slice with its length, and a struct as declared.
        checked(unsafe { raw::aries_read_page(image.as_ptr(), image.len(), number, &mut page) })?;
        Ok(Self {
            number: page.number,
            lsn: page.lsn,
            slots: page.slots.map(|slot| image::from_raw(&slot)),
        })
    }
}
