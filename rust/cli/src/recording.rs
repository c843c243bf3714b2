//! The two kinds of recording that can be converted, line by line.

use types::Item;

#[derive(Clone, Copy)]
pub enum Format {
    /// `page time`, two decimal numbers, and `w` after them for a write.
    Plain,
    /// What valgrind's lackey writes: kind of access, address, size.
    Lackey { page_bits: u32 },
}

/// What a line has after its numbers if it is a write.
const WRITE_WORD: &str = "w";

/// Lines valgrind itself adds start with one of these.
const VALGRIND_MARKS: [&str; 3] = ["==", "--", "**"];

/// Reads the lines of one recording.
pub struct Reader {
    format: Format,
    items: u64,
    before: u64,
}

impl Reader {
    pub fn new(format: Format) -> Self {
        Reader {
            format,
            items: 0,
            before: 0,
        }
    }

    /// The item of a line, if it has one.
    pub fn line(&mut self, line: &[u8]) -> Result<Option<Item>, String> {
        let text = String::from_utf8_lossy(line);
        let text = text.trim();
        let item = match self.format {
            _ if text.is_empty() => return Ok(None),
            Format::Plain => plain(text),
            Format::Lackey { .. } if VALGRIND_MARKS.iter().any(|mark| text.starts_with(mark)) => {
                return Ok(None);
            }
            Format::Lackey { page_bits } => lackey(text).map(|access| Item {
                page: access.address >> page_bits,
                time: self.items,
                written: access.written,
            }),
        };
        let item = item.ok_or_else(|| self.unreadable(text))?;
        self.keeps_the_order(item)?;
        self.items += 1;
        self.before = item.time;
        Ok(Some(item))
    }

    fn unreadable(&self, text: &str) -> String {
        let wanted = match self.format {
            Format::Plain => "`page time` or `page time w`, in decimal numbers of 64 bits",
            Format::Lackey { .. } => "an access as lackey writes it",
        };
        let start: String = text.chars().take(60).collect();
        format!("expected {wanted}, found `{start}`")
    }

    /// The library would refuse such an item too, but cannot name the line.
    fn keeps_the_order(&self, item: Item) -> Result<(), String> {
        match item.time < self.before {
            true => Err(format!("time falls from {} to {}", self.before, item.time)),
            false => Ok(()),
        }
    }
}

fn plain(text: &str) -> Option<Item> {
    let words: Vec<&str> = text.split_ascii_whitespace().collect();
    let (page, time, written) = match words[..] {
        [page, time] => (page, time, false),
        [page, time, WRITE_WORD] => (page, time, true),
        _ => return None,
    };
    Some(Item {
        page: decimal(page)?,
        time: decimal(time)?,
        written,
    })
}

struct Access {
    address: u64,
    written: bool,
}

/// An access: `I  04001090,3`, ` L 1ffeffe7e,8` and so on. A modify (M) is a
/// load and a store of one place by one instruction.
fn lackey(text: &str) -> Option<Access> {
    let (kind, place) = text.split_once(' ')?;
    let (address, size) = place.trim_start().split_once(',')?;
    let is_hexadecimal = address.bytes().all(|byte| byte.is_ascii_hexdigit());
    decimal(size)?;
    let written = match kind {
        "I" | "L" => false,
        "S" | "M" => true,
        _ => return None,
    };
    let address = is_hexadecimal.then(|| u64::from_str_radix(address, 16).ok())??;
    Some(Access { address, written })
}

/// Digits only: the standard parser would take a sign as well.
fn decimal(word: &str) -> Option<u64> {
    let digits = word.bytes().all(|byte| byte.is_ascii_digit());
    digits.then(|| word.parse().ok())?
}

#[cfg(test)]
mod tests {
    use super::*;

    fn items(format: Format, lines: &[&str]) -> Result<Vec<Item>, String> {
        let mut reader = Reader::new(format);
        let mut found = Vec::new();
        for line in lines {
            found.extend(reader.line(line.as_bytes())?);
        }
        Ok(found)
    }

    #[test]
    fn plain_lines() {
        let lines = ["1 10\n", "\n", "  2\t10 \r\n", "3 18446744073709551615"];
        let found = items(Format::Plain, &lines);
        let expected = [(1, 10), (2, 10), (3, u64::MAX)];
        assert_eq!(found, Ok(expected.map(|(p, t)| Item::read(p, t)).to_vec()));
    }

    #[test]
    fn plain_lines_that_are_writes() {
        let lines = ["1 10 w\n", "1 11\n", " 2\t12  w \r\n", "2 12 w"];
        let expected = [
            Item::write(1, 10),
            Item::read(1, 11),
            Item::write(2, 12),
            Item::write(2, 12),
        ];
        assert_eq!(items(Format::Plain, &lines), Ok(expected.to_vec()));
    }

    #[test]
    fn plain_lines_that_are_none() {
        for line in [
            "1",
            "1 2 3",
            "1 w",
            "w 1 2",
            "1 2w",
            "1 2 W",
            "1 2 r",
            "1 2 w w",
            "1 2 w 3",
            "a 1",
            "-1 2",
            "+1 2",
            "1 18446744073709551616",
        ] {
            assert!(items(Format::Plain, &[line]).is_err(), "{line}");
        }
        assert!(items(Format::Plain, &["18446744073709551616 1"]).is_err());
        assert!(items(Format::Plain, &["18446744073709551616 1 w"]).is_err());
        assert!(items(Format::Plain, &["1 5", "1 4"]).is_err());
        assert!(items(Format::Plain, &["1 5 w", "1 4 w"]).is_err());
    }

    /// Every number of 64 bits is a page, read or written.
    #[test]
    fn plain_lines_of_the_first_and_the_last_page() {
        let lines = [
            "18446744073709551615 1",
            "18446744073709551615 1 w",
            "0 2",
            "0 2 w",
            "18446744073709551614 18446744073709551615",
        ];
        let expected = [
            Item::read(u64::MAX, 1),
            Item::write(u64::MAX, 1),
            Item::read(0, 2),
            Item::write(0, 2),
            Item::read(u64::MAX - 1, u64::MAX),
        ];
        assert_eq!(items(Format::Plain, &lines), Ok(expected.to_vec()));
        let falls = ["18446744073709551615 5", "18446744073709551615 4"];
        let found = items(Format::Plain, &falls);
        assert_eq!(found, Err("time falls from 5 to 4".to_string()));
    }

    #[test]
    fn lackey_lines() {
        let lines = [
            "==7== Lackey, an example tool\n",
            "I  04001090,3\n",
            " S 1ffeffe7e8,8\n",
            "--7-- a note\n",
            " L 0423f000,4\n",
            "I  04001fff,1\n",
            " M 0421c7cc,4\n",
            "==7== \n",
        ];
        let found = items(Format::Lackey { page_bits: 12 }, &lines);
        let expected = [
            Item::read(0x4001, 0),
            Item::write(0x1ffeffe, 1),
            Item::read(0x423f, 2),
            Item::read(0x4001, 3),
            Item::write(0x421c, 4),
        ];
        assert_eq!(found, Ok(expected.to_vec()));
        let bytes = items(Format::Lackey { page_bits: 0 }, &lines[1..2]);
        assert_eq!(bytes, Ok(vec![Item::read(0x0400_1090, 0)]));
    }

    /// Of all 64 bits of an address, where none is left off.
    #[test]
    fn lackey_lines_of_the_first_and_the_last_page() {
        let lines = [" S ffffffffffffffff,1\n", " L 00000000,8\n"];
        let found = items(Format::Lackey { page_bits: 0 }, &lines);
        assert_eq!(found, Ok(vec![Item::write(u64::MAX, 0), Item::read(0, 1)]));
    }

    #[test]
    fn lackey_lines_that_are_none() {
        for line in [
            "X 04001090,3",
            "I 0400109g,3",
            "I 04001090",
            "I 04001090,x",
            "I +4001090,3",
            "I 10000000000000000,3",
            "S 04001090,3 w",
            "hello",
        ] {
            let found = items(Format::Lackey { page_bits: 12 }, &[line]);
            assert!(found.is_err(), "{line}");
        }
    }
}
