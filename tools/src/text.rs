//! Holds names and messages as they are shown: in lines of text, and in JSON.

use std::ffi::OsStr;
use std::io;
use std::os::unix::ffi::OsStrExt;

/// Bytes as text of one line, in which nothing acts on a terminal: control characters, what is no UTF-8, and so the backslash are escaped.
pub fn shown(bytes: impl AsRef<OsStr>) -> String {
    if bytes.as_ref().is_empty() {
        return "''".to_string();
    }
    let mut text = String::new();
    for part in bytes.as_ref().as_bytes().utf8_chunks() {
        for letter in part.valid().chars() {
            match letter {
                '\0'..='\x1f' | '\x7f' => text.extend(escaped_byte(letter)),
                '\\' => text.push_str("\\\\"),
                _ if acts(letter) => text.extend(letter.escape_unicode()),
                _ => text.push(letter),
            }
        }
        text.extend(part.invalid().iter().map(|byte| format!("\\x{byte:02x}")));
    }
    text
}

/// A control character as a person types it: \n, \x1b.
fn escaped_byte(letter: char) -> impl Iterator<Item = char> {
    let short = letter.escape_default().to_string();
    let text = if short.len() == 2 { short } else { format!("\\x{:02x}", letter as u32) };
    text.chars().collect::<Vec<_>>().into_iter()
}

/// Whether a letter past ASCII controls the terminal, turns the order in which a line is shown, or is not seen.
fn acts(letter: char) -> bool {
    letter.is_control()
        || matches!(letter, '\u{61c}' | '\u{200b}'..='\u{200f}' | '\u{2028}'..='\u{202e}' | '\u{2060}'..='\u{206f}')
        || matches!(letter, '\u{feff}' | '\u{fff9}'..='\u{fffb}')
}

/// Bytes as a JSON string. A byte that is no UTF-8 becomes the escape \udcXX, as Python has it too.
pub fn json(bytes: impl AsRef<OsStr>) -> String {
    let mut text = String::from("\"");
    for part in bytes.as_ref().as_bytes().utf8_chunks() {
        for letter in part.valid().chars() {
            match letter {
                '"' | '\\' => text.extend(['\\', letter]),
                '\n' => text.push_str("\\n"),
                _ if letter.is_control() || acts(letter) => {
                    text.push_str(&format!("\\u{:04x}", letter as u32));
                }
                _ => text.push(letter),
            }
        }
        text.extend(part.invalid().iter().map(|byte| format!("\\udc{byte:02x}")));
    }
    text + "\""
}

/// A JSON object of names with values, which are JSON already.
pub fn object<'a>(fields: impl IntoIterator<Item = (&'a str, String)>) -> String {
    let fields = fields.into_iter().map(|(name, value)| format!("\"{name}\":{value}"));
    format!("{{{}}}", fields.collect::<Vec<_>>().join(","))
}

/// A JSON array of values, which are JSON already.
pub fn array(values: impl IntoIterator<Item = String>) -> String {
    format!("[{}]", values.into_iter().collect::<Vec<_>>().join(","))
}

/// What the system says of an error, without its number.
pub fn reason(error: &io::Error) -> String {
    let text = error.to_string();
    let number = error.raw_os_error().map(|number| format!(" (os error {number})"));
    match number.and_then(|number| text.strip_suffix(&number).map(str::to_string)) {
        Some(text) => text,
        None => text,
    }
}

#[cfg(test)]
mod tests {
    use super::*;

    const HOSTILE: &[u8] = b"a \"b\\\n\x1b[2J\x7f\xff\xc2\x9b\xe2\x80\xae \xc3\xa4";

    #[test]
    fn nothing_that_acts_is_shown() {
        let wanted = "a \"b\\\\\\n\\x1b[2J\\x7f\\xff\\u{9b}\\u{202e} \u{e4}";
        assert_eq!(shown(OsStr::from_bytes(HOSTILE)), wanted);
        assert_eq!(shown("\t\r\0"), "\\t\\r\\x00");
        assert_eq!(shown(""), "''");
        assert_eq!(shown("\u{feff}\u{200b}a"), "\\u{feff}\\u{200b}a");
    }

    #[test]
    fn json_is_escaped() {
        let wanted = "\"a \\\"b\\\\\\n\\u001b[2J\\u007f\\udcff\\u009b\\u202e \u{e4}\"";
        assert_eq!(json(OsStr::from_bytes(HOSTILE)), wanted);
        assert_eq!(object([("a", json("b")), ("c", array([]))]), "{\"a\":\"b\",\"c\":[]}");
    }

    #[test]
    fn an_error_is_told_without_its_number() {
        assert_eq!(reason(&io::Error::from_raw_os_error(2)), "No such file or directory");
        assert_eq!(reason(&io::Error::other("why")), "why");
    }
}
