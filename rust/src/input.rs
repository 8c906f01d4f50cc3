//! What a tool is handed: a file or standard input, as lines of text, as
//! hexadecimal pairs or as bytes.

use std::ffi::OsStr;
use std::io::{self, IsTerminal as _, Read as _};

use crate::text::{begins, pairs, Begins};

/// The mark with which some editors begin a text.
const BYTE_ORDER_MARK: &[u8] = b"\xEF\xBB\xBF";

/// What stands in a file.
#[derive(Clone, Debug, PartialEq, Eq)]
pub enum Input {
    /// Lines of the text form, parted by newlines alone.
    Lines(String),
    /// Bytes that stand there as hexadecimal pairs.
    Pairs(Vec<u8>),
    /// Bytes as they are.
    Bytes(Vec<u8>),
}

impl Input {
    /// Reads a file; `-`, or no name where nobody types, is standard input.
    /// A fault is told with the file's name.
    pub fn read(path: Option<&OsStr>) -> Result<Input, String> {
        let contents = match path.filter(|&path| path != "-") {
            Some(path) => std::fs::read(path),
            None if path.is_none() && io::stdin().is_terminal() => {
                return Err("no FILE is named; - is standard input".into());
            }
            None => {
                let mut contents = Vec::new();
                io::stdin().read_to_end(&mut contents).map(|_| contents)
            }
        };
        let name = name_of(path);
        let contents = contents.map_err(|error| format!("{name}: {error}"))?;
        Input::of(&contents).map_err(|wrong| format!("{name}: {wrong}"))
    }

    /// The form of a file's contents. A text begins with a word that begins
    /// a line, with a hexadecimal pair or with a comment; what does not, and
    /// is not all plain characters, is bytes.
    pub fn of(contents: &[u8]) -> Result<Input, String> {
        let text = contents.strip_prefix(BYTE_ORDER_MARK).unwrap_or(contents);
        if text.is_empty() {
            return Err("nothing stands there".into());
        }
        if is_utf16(contents) {
            return Err("this text is in UTF-16; it is read in UTF-8".into());
        }
        // Some editors end a text with this character.
        let text = text.strip_suffix(b"\x1A").unwrap_or(text);
        let (utf8, plain) = (
            std::str::from_utf8(text),
            text.iter().copied().all(is_plain),
        );
        let lines = match utf8 {
            Ok(text) => text.into(),
            // A text in Latin-1, each byte a character.
            Err(_) => text.iter().copied().map(char::from).collect::<String>(),
        };
        let lines = lines.replace("\r\n", "\n").replace('\r', "\n");
        match begins(&lines) {
            Begins::Neither(wrong) if plain && utf8.is_ok() => Err(wrong),
            Begins::Pair if plain => pairs(&lines).map(Input::Pairs),
            Begins::Line | Begins::Nothing if plain => Ok(Input::Lines(lines)),
            Begins::Line if is_no_job(&lines) => Err(stray(&lines)),
            _ => Ok(Input::Bytes(contents.to_vec())),
        }
    }
}

/// What a file is called in messages.
pub fn name_of(path: Option<&OsStr>) -> String {
    match path {
        Some(path) if path != "-" => path.to_string_lossy().into_owned(),
        _ => "standard input".into(),
    }
}

/// White space, and all that is no control character.
fn is_plain(byte: u8) -> bool {
    matches!(byte, b'\t'..=b'\r') || !byte.is_ascii_control()
}

/// Whether a text that begins with a line's word, after comments or not, and
/// has control characters cannot be an accepted job. One without a byte from
/// 0 to 8 has no guide count. One with the word at its beginning has a plan
/// too short for its lanes: up to 122 bytes for 97 lanes at least; and with
/// white space of ASCII before it, as numbers 9 to 13 or 32, up to 32 bytes
/// for 9 lanes at least.
fn is_no_job(lines: &str) -> bool {
    let begin = lines.trim_start_matches(|letter| matches!(letter, '\t'..='\r' | ' '));
    let at_once = begin.starts_with(|letter: char| letter.is_ascii_lowercase());
    at_once || lines.bytes().all(|byte| byte > 8)
}

/// The first character that no text has.
fn stray(lines: &str) -> String {
    let is_stray = |letter: char| u8::try_from(letter).is_ok_and(|byte| !is_plain(byte));
    for (number, line) in (1..).zip(lines.lines()) {
        if let Some(letter) = line.chars().find(|&letter| is_stray(letter)) {
            let code = u32::from(letter);
            return format!("line {number}: the control character {code:02X} stands in no text");
        }
    }
    "a control character stands in no text".into()
}

/// Whether a text is in UTF-16: it begins with that form's mark and a plain
/// character, or with two letters between zeros. No job begins so: its plan
/// would have no places, or a length that is not in its shortest form.
fn is_utf16(contents: &[u8]) -> bool {
    let letter = |byte: u8| byte.is_ascii_alphabetic() || byte == b'#' || byte == b' ';
    match *contents {
        [0xFF, 0xFE, first, 0, ..] | [0xFE, 0xFF, 0, first, ..] => is_plain(first),
        [first, 0, second, 0, ..] | [0, first, 0, second, ..] => letter(first) && letter(second),
        _ => false,
    }
}
