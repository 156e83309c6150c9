//! Holds a command as it is called, and its command line taken apart.

use crate::text::shown;
use crate::Failure;
use std::ffi::{OsStr, OsString};
use std::os::unix::ffi::OsStrExt;

/// A command of the program.
pub struct Command {
    pub name: &'static str,
    /// The program and the command, as they are typed.
    pub called: &'static str,
    pub help: &'static str,
    pub options: &'static [Known],
    pub run: fn(&Args) -> Result<(), Failure>,
}

/// An option that a command knows.
pub enum Known {
    Flag(&'static str),
    Valued(&'static str),
}

impl Known {
    pub fn name(&self) -> &'static str {
        match self {
            Known::Flag(name) | Known::Valued(name) => name,
        }
    }
}

/// The options of a command line, and its other words.
#[derive(Debug, Default, PartialEq)]
pub struct Args {
    pub words: Vec<OsString>,
    pub help: bool,
    options: Vec<(&'static str, OsString)>,
}

impl Args {
    /// Takes a command line apart, or says what is wrong with it. Behind `--` all are words.
    pub fn parse(
        mut line: impl Iterator<Item = OsString>,
        known: &[Known],
    ) -> Result<Args, String> {
        let mut args = Args::default();
        while let Some(word) = line.next() {
            match word.as_bytes() {
                b"--" => args.words.extend(line.by_ref()),
                b"-h" | b"--help" => args.help = true,
                [b'-', _, ..] => args.options.push(taken(&word, &mut line, known)?),
                _ => args.words.push(word),
            }
        }
        Ok(args)
    }

    pub fn flag(&self, name: &str) -> bool {
        self.value(name).is_some()
    }

    /// The value of an option, the last one where it is given twice.
    pub fn value(&self, name: &str) -> Option<&OsStr> {
        let given = self.options.iter().rev().find(|(option, _)| *option == name);
        given.map(|(_, value)| value.as_os_str())
    }

    /// The value of an option that takes a number.
    pub fn number(&self, name: &str) -> Result<Option<u32>, String> {
        self.valued(name, "number", |text| u32::try_from(digits(text.as_bytes())?).ok())
    }

    /// The value of an option that takes a number of bytes, with k, M or G behind it for the powers of 1024.
    pub fn size(&self, name: &str) -> Result<Option<u32>, String> {
        self.valued(name, "size", |text| {
            let last = text.bytes().last()?.to_ascii_lowercase();
            let power = b"kmg".iter().position(|&letter| letter == last);
            let number = &text[..text.len() - usize::from(power.is_some())];
            let unit = 1024_u64.pow(power.map_or(0, |place| place as u32 + 1));
            u32::try_from(digits(number.as_bytes())?.checked_mul(unit)?).ok()
        })
    }

    fn valued(
        &self,
        name: &str,
        kind: &str,
        read: impl Fn(&str) -> Option<u32>,
    ) -> Result<Option<u32>, String> {
        let Some(value) = self.value(name) else { return Ok(None) };
        match value.to_str().and_then(read) {
            Some(number) => Ok(Some(number)),
            None => Err(format!("{name} takes a {kind}, not '{}'", shown(value))),
        }
    }
}

/// A number of digits alone. One that is too great for 64 bits is the greatest of these, which is beyond every limit too.
pub fn digits(text: &[u8]) -> Option<u64> {
    let only = !text.is_empty() && text.iter().all(u8::is_ascii_digit);
    only.then(|| {
        text.iter().fold(0_u64, |number, digit| {
            number.saturating_mul(10).saturating_add(u64::from(digit - b'0'))
        })
    })
}

/// An option with its value, which stands behind a `=` or is the next word. Neither need be UTF-8.
fn taken(
    option: &OsStr,
    line: &mut impl Iterator<Item = OsString>,
    known: &[Known],
) -> Result<(&'static str, OsString), String> {
    let mut parts = option.as_bytes().splitn(2, |&byte| byte == b'=');
    let name = OsStr::from_bytes(parts.next().unwrap_or_default());
    let behind = parts.next().map(|value| OsStr::from_bytes(value).to_os_string());
    let found = known.iter().find(|known| name == known.name());
    match (found.ok_or_else(|| format!("there is no option {}", shown(name)))?, behind) {
        (Known::Valued(name), Some(value)) => Ok((name, value)),
        (Known::Valued(name), None) => {
            line.next().map(|value| (*name, value)).ok_or_else(|| format!("{name} takes a value"))
        }
        (Known::Flag(name), None) => Ok((name, OsString::new())),
        (Known::Flag(name), Some(_)) => Err(format!("{name} takes no value")),
    }
}

#[cfg(test)]
mod tests {
    use super::*;

    const KNOWN: [Known; 2] = [Known::Flag("--force"), Known::Valued("--blocks")];

    fn parse(line: &str) -> Result<Args, String> {
        Args::parse(line.split_whitespace().map(OsString::from), &KNOWN)
    }

    #[test]
    fn options_stand_anywhere_before_two_dashes() {
        let args = parse("a --blocks 3 b --force -- --blocks -h").unwrap();
        assert_eq!(args.words, ["a", "b", "--blocks", "-h"]);
        assert_eq!((args.flag("--force"), args.help), (true, false));
        assert_eq!(args.number("--blocks"), Ok(Some(3)));
        assert!(parse("a -h").unwrap().help && parse("--help").unwrap().help);
        assert_eq!(parse("- a").unwrap().words, ["-", "a"]);
    }

    #[test]
    fn the_last_value_counts() {
        let args = parse("--blocks=3 --blocks 4").unwrap();
        assert_eq!(args.number("--blocks"), Ok(Some(4)));
        assert_eq!(parse("a").unwrap().number("--blocks"), Ok(None));
    }

    #[test]
    fn wrong_options_are_told() {
        for (line, wanted) in [
            ("--fast", "there is no option --fast"),
            ("-f", "there is no option -f"),
            ("--blocks", "--blocks takes a value"),
            ("--force=1", "--force takes no value"),
        ] {
            assert_eq!(parse(line), Err(wanted.to_string()));
        }
        for value in ["x", "-1", "+1", "4294967296", "99999999999999999999999"] {
            let told = parse(&format!("--blocks {value}")).unwrap().number("--blocks");
            assert_eq!(told, Err(format!("--blocks takes a number, not '{value}'")));
        }
    }

    #[test]
    fn sizes_have_units() {
        let size = |value: &str| parse(&format!("--blocks {value}")).unwrap().size("--blocks");
        let read = [("4096", 4096), ("4k", 4096), ("4K", 4096), ("4M", 1 << 22), ("3g", 3 << 30)];
        for (value, bytes) in read {
            assert_eq!(size(value), Ok(Some(bytes)), "{value}");
        }
        for value in
            ["4G", "k", "4kk", "4 k", "4x", "-4k", "1.5M", "4\u{e4}", "18446744073709551616G"]
        {
            let value = value.replace(' ', "_");
            assert_eq!(size(&value), Err(format!("--blocks takes a size, not '{value}'")));
        }
    }

    #[test]
    fn what_is_no_utf_8_is_a_value_or_an_unknown_option() {
        let parse = |words: &[&[u8]]| {
            let words = words.iter().map(|word| OsStr::from_bytes(word).to_os_string());
            Args::parse(words.collect::<Vec<_>>().into_iter(), &KNOWN)
        };
        let value = OsStr::from_bytes(b"\xff=\xfe");
        for words in [&[&b"--blocks=\xff=\xfe"[..]][..], &[b"--blocks", b"\xff=\xfe"]] {
            let args = parse(words).unwrap();
            assert_eq!((args.value("--blocks"), args.words.len()), (Some(value), 0));
            let told = Err("--blocks takes a number, not '\\xff=\\xfe'".to_string());
            assert_eq!(args.number("--blocks"), told);
        }
        assert_eq!(parse(&[b"-\xff"]), Err("there is no option -\\xff".to_string()));
        assert_eq!(parse(&[b"\xff"]).unwrap().words, [OsStr::from_bytes(b"\xff")]);
    }
}
