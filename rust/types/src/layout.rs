//! The bytes of a trace file: fields of one byte tag, two bytes length and the
//! value, all numbers low byte first.

use crate::{Header, Item};

pub const HEADER_BYTES: usize = 23;
pub const ITEM_BYTES: usize = 19;

/// A header field: where it starts, its tag, and the length of its value.
pub struct Field {
    pub at: usize,
    pub tag: u8,
    pub length: u16,
}

pub const KIND: Field = Field::new(0, 1, 1);
pub const FILTER: Field = Field::new(4, 2, 2);
pub const REFERENCES: Field = Field::new(9, 3, 4);
pub const ITEMS: Field = Field::new(16, 4, 4);

/// The two tags of an item; its layout is the same with either.
pub const READ_TAG: u8 = 5;
pub const WRITE_TAG: u8 = 6;
pub const ITEM_LENGTH: u16 = 16;

/// Tag and length come before each value.
const BEFORE_VALUE: usize = 3;

impl Field {
    const fn new(at: usize, tag: u8, length: u16) -> Self {
        Field { at, tag, length }
    }

    /// Whether the field's tag and length stand where they should.
    pub fn is_marked(&self, file: &[u8]) -> bool {
        file[self.at] == self.tag
            && file[self.at + 1..self.at + BEFORE_VALUE] == self.length.to_le_bytes()
    }

    pub fn value(&self, file: &[u8]) -> u64 {
        let mut bytes = [0; 8];
        let length = usize::from(self.length);
        bytes[..length].copy_from_slice(&file[self.at + BEFORE_VALUE..][..length]);
        u64::from_le_bytes(bytes)
    }

    /// Writes tag, length and the low bytes of the value.
    fn put(&self, file: &mut [u8], value: u64) {
        let length = usize::from(self.length);
        let field = &mut file[self.at..][..BEFORE_VALUE + length];
        field[0] = self.tag;
        field[1..BEFORE_VALUE].copy_from_slice(&self.length.to_le_bytes());
        field[BEFORE_VALUE..].copy_from_slice(&value.to_le_bytes()[..length]);
    }
}

/// How many bytes a file of so many items has.
pub fn file_bytes(items: usize) -> usize {
    HEADER_BYTES + ITEM_BYTES * items
}

/// Writes the header over the first bytes of a file.
pub fn put_header(file: &mut [u8], header: &Header) {
    KIND.put(file, header.kind);
    FILTER.put(file, header.filter);
    REFERENCES.put(file, header.references);
    ITEMS.put(file, header.items);
}

/// The bytes of one item.
pub fn item_bytes(item: Item) -> [u8; ITEM_BYTES] {
    let mut bytes = [0; ITEM_BYTES];
    bytes[0] = if item.written { WRITE_TAG } else { READ_TAG };
    bytes[1..3].copy_from_slice(&ITEM_LENGTH.to_le_bytes());
    bytes[3..11].copy_from_slice(&item.page.to_le_bytes());
    bytes[11..].copy_from_slice(&item.time.to_le_bytes());
    bytes
}

/// A file with the header as given and the items in order. Nothing is
/// checked: tests need files that break the rules as well.
pub fn encode(header: &Header, items: &[Item]) -> Vec<u8> {
    let mut file = Vec::with_capacity(file_bytes(items.len()));
    file.resize(HEADER_BYTES, 0);
    put_header(&mut file, header);
    for item in items {
        file.extend_from_slice(&item_bytes(*item));
    }
    file
}

/// A file of kind 0 that holds these items.
pub fn whole(items: &[Item]) -> Vec<u8> {
    let count = items.len() as u64;
    let header = Header {
        kind: 0,
        filter: 0,
        references: count,
        items: count,
    };
    encode(&header, items)
}

#[cfg(test)]
mod tests {
    use super::*;

    /// The table of the file's bytes, written out by hand.
    #[test]
    fn a_file_of_one_item_byte_by_byte() {
        let header = Header {
            kind: 2,
            filter: 0x0102,
            references: 0x0304_0506,
            items: 1,
        };
        let item = Item::read(0x1112_1314_1516_1718, 0x2122_2324_2526_2728);
        #[rustfmt::skip]
        let expected = [
            1, 1, 0, 2,
            2, 2, 0, 0x02, 0x01,
            3, 4, 0, 0x06, 0x05, 0x04, 0x03,
            4, 4, 0, 1, 0, 0, 0,
            5, 16, 0,
            0x18, 0x17, 0x16, 0x15, 0x14, 0x13, 0x12, 0x11,
            0x28, 0x27, 0x26, 0x25, 0x24, 0x23, 0x22, 0x21,
        ];
        let file = encode(&header, &[item]);
        assert_eq!(file, expected);
        assert_eq!(FILTER.value(&file), 0x0102);
        assert_eq!(REFERENCES.value(&file), 0x0304_0506);
    }

    #[test]
    fn a_write_differs_in_its_tag_alone() {
        let [read, write] = [Item::read(9, 7), Item::write(9, 7)].map(item_bytes);
        assert_eq!((read[0], write[0]), (5, 6));
        assert_eq!(read[1..], write[1..]);
    }

    #[test]
    fn an_empty_whole_file_has_23_bytes() {
        assert_eq!(whole(&[]).len(), 23);
        assert_eq!(file_bytes(8), 175);
    }
}
