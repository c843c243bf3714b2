//! What a cache is a row of.

/// A place of a cache: its page, and whether that was written since its fetch.
/// The archive is lent rows of these, so they are laid out as C does it.
#[repr(C)]
#[derive(Clone, Copy, Debug, PartialEq, Eq)]
pub struct Frame {
    pub page: u64,
    pub written: bool,
}

impl Frame {
    pub const fn clean(page: u64) -> Self {
        Frame {
            page,
            written: false,
        }
    }

    pub const fn written(page: u64) -> Self {
        Frame {
            page,
            written: true,
        }
    }
}

#[cfg(test)]
mod tests {
    use super::*;
    use std::mem::{align_of, offset_of, size_of};

    /// What the archive's functions are told of it.
    #[test]
    fn sixteen_bytes_with_the_page_first() {
        assert_eq!((size_of::<Frame>(), align_of::<Frame>()), (16, 8));
        assert_eq!(
            (offset_of!(Frame, page), offset_of!(Frame, written)),
            (0, 8)
        );
    }
}
