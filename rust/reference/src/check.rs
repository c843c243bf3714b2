//! The checker: refusals 1 to 4 and 6, in that order.

use types::layout::{
    FILTER, HEADER_BYTES, ITEM_BYTES, ITEM_LENGTH, ITEMS, KIND, READ_TAG, REFERENCES, WRITE_TAG,
    file_bytes,
};
use types::limits::{LARGEST_FILTER, MOST_ITEMS};
use types::{Header, Item, Refusal};

/// Checks a trace file and answers its header values.
pub fn check(file: &[u8]) -> Result<Header, Refusal> {
    let header = read_header(file)?;
    if !keeps_the_rules(&header) {
        return Err(Refusal::new(2));
    }
    if file.len() != file_bytes(header.items as usize) {
        return Err(Refusal::new(3));
    }
    check_items(file)?;
    Ok(header)
}

/// The items of a file that has been checked.
pub fn items(file: &[u8]) -> impl DoubleEndedIterator<Item = Item> {
    item_rows(file).iter().map(read_item)
}

/// The bytes of each item.
pub fn item_rows(file: &[u8]) -> &[[u8; ITEM_BYTES]] {
    file[HEADER_BYTES..].as_chunks().0
}

fn read_header(file: &[u8]) -> Result<Header, Refusal> {
    let marked = file.len() >= HEADER_BYTES
        && [KIND, FILTER, REFERENCES, ITEMS]
            .iter()
            .all(|field| field.is_marked(file));
    if !marked {
        return Err(Refusal::new(1));
    }
    Ok(Header {
        kind: KIND.value(file),
        filter: FILTER.value(file),
        references: REFERENCES.value(file),
        items: ITEMS.value(file),
    })
}

fn keeps_the_rules(header: &Header) -> bool {
    let of_its_kind = match header.kind {
        0 => header.filter == 0 && header.items == header.references,
        1 | 2 => {
            (1..=LARGEST_FILTER).contains(&header.filter)
                && header.items <= header.references
                && (header.items > 0 || header.references == 0)
        }
        _ => false,
    };
    of_its_kind && header.items <= MOST_ITEMS
}

/// The first faulty item counts, and in it the lowest number. Any page will do.
fn check_items(file: &[u8]) -> Result<(), Refusal> {
    let mut before = 0;
    for (number, bytes) in item_rows(file).iter().enumerate() {
        let item = read_item(bytes);
        let fault = if !is_marked(bytes) {
            4
        } else if item.time < before {
            6
        } else {
            before = item.time;
            continue;
        };
        return Err(Refusal::of_item(fault, number as u64));
    }
    Ok(())
}

/// Whether the item's tag is one of the two, and its length as it should be.
fn is_marked(bytes: &[u8; ITEM_BYTES]) -> bool {
    [READ_TAG, WRITE_TAG].contains(&bytes[0]) && bytes[1..3] == ITEM_LENGTH.to_le_bytes()
}

fn read_item(bytes: &[u8; ITEM_BYTES]) -> Item {
    let number = |at: usize| u64::from_le_bytes(bytes[at..at + 8].try_into().expect("eight bytes"));
    Item {
        page: number(3),
        time: number(11),
        written: bytes[0] == WRITE_TAG,
    }
}
