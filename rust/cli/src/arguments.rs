//! Takes a command line apart: options with a value, flags, and files.

use crate::failure::Failure;
use std::ffi::{OsStr, OsString};
use std::path::PathBuf;

/// The options a command knows.
pub struct Known {
    pub valued: &'static [&'static str],
    pub flags: &'static [&'static str],
}

#[derive(Default)]
pub struct Arguments {
    pub files: Vec<PathBuf>,
    given: Vec<(&'static str, OsString)>,
}

/// Whether help is asked for before the end of the options.
pub fn ask_for_help(arguments: &[OsString]) -> bool {
    arguments
        .iter()
        .take_while(|argument| *argument != "--")
        .any(|argument| argument == "--help" || argument == "-h")
}

pub fn parse(arguments: &[OsString], known: &Known) -> Result<Arguments, Failure> {
    let mut parsed = Arguments::default();
    let mut rest = arguments.iter();
    while let Some(argument) = rest.next() {
        if argument == "--" {
            parsed.files.extend(rest.map(PathBuf::from));
            break;
        }
        if argument == "-" || !argument.as_encoded_bytes().starts_with(b"-") {
            parsed.files.push(PathBuf::from(argument));
            continue;
        }
        parsed.option(argument, &mut rest, known)?;
    }
    Ok(parsed)
}

impl Arguments {
    fn option<'a>(
        &mut self,
        argument: &OsStr,
        rest: &mut impl Iterator<Item = &'a OsString>,
        known: &Known,
    ) -> Result<(), Failure> {
        let shown = argument.to_string_lossy();
        // Text after `=` is the value; only an argument that is text has one.
        let (name, attached) = match argument.to_str().and_then(|text| text.split_once('=')) {
            Some((name, value)) => (name, Some(OsString::from(value))),
            None => (shown.as_ref(), None),
        };
        if self.given.iter().any(|(given, _)| *given == name) {
            return Err(Failure::usage(format!("{name} given twice")));
        }
        if let Some(valued) = known.valued.iter().find(|valued| **valued == name) {
            let value = attached
                .or_else(|| rest.next().cloned())
                .ok_or_else(|| Failure::usage(format!("{name} needs a value")))?;
            self.given.push((valued, value));
            return Ok(());
        }
        match known.flags.iter().find(|flag| **flag == name) {
            Some(flag) if attached.is_none() => {
                self.given.push((flag, OsString::new()));
                Ok(())
            }
            Some(_) => Err(Failure::usage(format!("{name} takes no value"))),
            None => Err(Failure::usage(format!("no option {shown}"))),
        }
    }

    pub fn has(&self, flag: &str) -> bool {
        self.given.iter().any(|(given, _)| *given == flag)
    }

    pub fn value(&self, name: &str) -> Option<&OsStr> {
        let (_, value) = self.given.iter().find(|(given, _)| *given == name)?;
        Some(value)
    }

    pub fn required(&self, name: &str) -> Result<&OsStr, Failure> {
        self.value(name)
            .ok_or_else(|| Failure::usage(format!("{name} is missing")))
    }

    /// A number of 64 bits. Whether it is in range is for the library to say.
    pub fn number(&self, name: &str) -> Result<u64, Failure> {
        let value = self.required(name)?.to_string_lossy();
        value
            .parse()
            .map_err(|_| Failure::usage(format!("{name} takes a whole number, not `{value}`")))
    }

    /// The files, of which there must be at least so many.
    pub fn at_least(&self, count: usize) -> Result<&[PathBuf], Failure> {
        match self.files.len() {
            0 => Err(Failure::usage("no file given")),
            given if given < count => Err(Failure::usage("a further file is needed")),
            _ => Ok(&self.files),
        }
    }
}

#[cfg(test)]
mod tests {
    use super::*;

    const KNOWN: Known = Known {
        valued: &["-o", "--filter"],
        flags: &["--quiet"],
    };

    fn parsed(words: &[&str]) -> Result<Arguments, Failure> {
        let words: Vec<_> = words.iter().map(OsString::from).collect();
        parse(&words, &KNOWN)
    }

    #[test]
    fn options_flags_and_files_in_any_order() {
        let arguments = parsed(&["a", "-o", "x", "--quiet", "--filter=7", "-", "b"]).unwrap();
        assert_eq!(arguments.files, ["a", "-", "b"].map(PathBuf::from));
        assert_eq!(arguments.value("-o"), Some(OsStr::new("x")));
        assert_eq!(arguments.number("--filter").unwrap(), 7);
        assert!(arguments.has("--quiet"));
    }

    #[test]
    fn two_dashes_end_the_options() {
        let arguments = parsed(&["--", "--quiet", "-o"]).unwrap();
        assert_eq!(arguments.files.len(), 2);
        assert!(!arguments.has("--quiet"));
        assert!(!ask_for_help(&["--", "--help"].map(OsString::from)));
    }

    #[test]
    fn what_cannot_be_followed() {
        for words in [
            &["--no"][..],
            &["-o"],
            &["--quiet=1"],
            &["--quiet", "--quiet"],
            &["-o", "a", "-o=b"],
        ] {
            assert!(parsed(words).is_err(), "{words:?}");
        }
        let minus = parsed(&["--filter", "-1"]).unwrap();
        assert!(minus.number("--filter").is_err());
    }
}
