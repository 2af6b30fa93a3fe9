//! The arguments of a command: options stand anywhere before `--`, and `-` is standard input where a file is wanted.
use crate::failure::{wrong_call, Failure};
use std::ffi::{OsStr, OsString};
use std::os::unix::ffi::{OsStrExt, OsStringExt};
use std::path::PathBuf;

/// The options that a command takes.
pub struct Options {
    /// Those without a value, as `--why`.
    pub flags: &'static [&'static str],
    /// Those with a value, as `--seeds`, which stands after them or after a `=`.
    pub valued: &'static [&'static str],
}

/// What a command was given.
#[derive(Debug, Default, PartialEq)]
pub struct Given {
    /// The words that are no options, in their order.
    pub words: Vec<String>,
    flags: Vec<&'static str>,
    values: Vec<(&'static str, String)>,
}

impl Given {
    pub fn has(&self, flag: &str) -> bool {
        self.flags.contains(&flag)
    }

    /// The value of an option, where it was given.
    pub fn value(&self, option: &str) -> Option<&str> {
        self.values.iter().find(|(name, _)| *name == option).map(|(_, value)| value.as_str())
    }
}

/// Tells options and words apart. An option that is given twice, or that the command does not have, is a wrong call.
pub fn read(command: &str, arguments: &[String], options: &Options) -> Result<Given, Failure> {
    let mut given = Given::default();
    let mut left = arguments.iter();
    while let Some(argument) = left.next() {
        if argument == "--" {
            given.words.extend(left.cloned());
            break;
        }
        if argument == "-" || !argument.starts_with('-') {
            given.words.push(argument.clone());
            continue;
        }
        let (name, value) = match argument.split_once('=') {
            Some((name, value)) => (name, Some(value.to_owned())),
            None => (argument.as_str(), None),
        };
        take_option(command, &mut given, options, name, value, &mut left)?;
    }
    Ok(given)
}

fn take_option<'a>(
    command: &str,
    given: &mut Given,
    options: &Options,
    name: &str,
    value: Option<String>,
    left: &mut impl Iterator<Item = &'a String>,
) -> Result<(), Failure> {
    let wrong = |what: String| Err(wrong_call(command, &what));
    if given.has(name) || given.value(name).is_some() {
        return wrong(format!("{name} is given twice"));
    }
    if let Some(flag) = options.flags.iter().find(|flag| **flag == name) {
        if value.is_some() {
            return wrong(format!("{name} takes no value"));
        }
        given.flags.push(flag);
        return Ok(());
    }
    let Some(option) = options.valued.iter().find(|option| **option == name) else {
        return wrong(format!("unknown option {}; a name that begins with - must come after --", shown(name)));
    };
    let Some(value) = value.or_else(|| left.next().cloned()) else {
        return wrong(format!("{name} needs a value after it"));
    };
    given.values.push((option, value));
    Ok(())
}

/// The one file of a command that takes at most one: `-`, standard input, where none is given.
pub fn one_file<'a>(command: &str, given: &'a Given) -> Result<&'a str, Failure> {
    match given.words.as_slice() {
        [] => Ok("-"),
        [file] => Ok(file),
        [_, second, ..] => Err(wrong_call(command, &format!("give one file; {} is a second one", shown(second)))),
    }
}

/// Standard input is read once: `-` twice among the files is a wrong call.
pub fn check_input_once(command: &str, files: &[String]) -> Result<(), Failure> {
    match files.iter().filter(|file| *file == "-").count() {
        0 | 1 => Ok(()),
        _ => Err(wrong_call(command, "- is given twice, and standard input can be read only once")),
    }
}

/// A number of 32 bits, spelt without leading zeros.
pub fn number_of_32_bits(word: &str) -> Option<u32> {
    let is_spelt = word == "0" || !word.starts_with('0') && word.bytes().all(|byte| byte.is_ascii_digit());
    word.parse().ok().filter(|_| is_spelt)
}

/// A byte of an argument that is no text, as the character that stands for it in a word.
fn byte_of(character: char) -> Option<u8> {
    let byte = u32::from(character).checked_sub(BYTES)?;
    u8::try_from(byte).ok().filter(|byte| *byte >= 0x80)
}

/// The characters from here on stand for bytes: private ones, which no text has.
const BYTES: u32 = 0xf700;

/// An argument as a word. Any bytes can be a name; those that are no text in UTF-8 have a character each, and so have the bytes of such
/// a character.
pub fn word_of(argument: &OsStr) -> String {
    let mut word = String::new();
    for chunk in argument.as_bytes().utf8_chunks() {
        for character in chunk.valid().chars() {
            match byte_of(character) {
                None => word.push(character),
                Some(_) => push_bytes(&mut word, character.encode_utf8(&mut [0; 4]).as_bytes()),
            }
        }
        push_bytes(&mut word, chunk.invalid());
    }
    word
}

fn push_bytes(word: &mut String, bytes: &[u8]) {
    word.extend(bytes.iter().filter_map(|byte| char::from_u32(BYTES + u32::from(*byte))));
}

/// The bytes of the argument that a word was made of.
pub fn bytes_of(word: &str) -> Vec<u8> {
    let mut bytes = Vec::new();
    for character in word.chars() {
        match byte_of(character) {
            Some(byte) => bytes.push(byte),
            None => bytes.extend(character.encode_utf8(&mut [0; 4]).bytes()),
        }
    }
    bytes
}

/// The file that a word names.
pub fn path_of(word: &str) -> PathBuf {
    PathBuf::from(OsString::from_vec(bytes_of(word)))
}

/// A word for a message: with control characters, which could spoil a terminal, as escapes.
pub fn shown(word: &str) -> String {
    let plain = |character: char| match byte_of(character) {
        Some(byte) => byte.escape_ascii().to_string(),
        None if character.is_control() => character.escape_default().to_string(),
        None => character.to_string(),
    };
    match word {
        "" => "''".into(),
        _ => word.chars().map(plain).collect(),
    }
}

#[cfg(test)]
mod tests {
    use super::*;

    const OPTIONS: Options = Options { flags: &["--why"], valued: &["--seeds"] };

    fn read_words(words: &[&str]) -> Result<Given, Failure> {
        read("batch", &words.iter().map(|word| word.to_string()).collect::<Vec<_>>(), &OPTIONS)
    }

    #[test]
    fn options_stand_anywhere_before_the_two_dashes() {
        for words in [["--why", "a", "--seeds", "1-2"], ["a", "--seeds", "1-2", "--why"]] {
            let given = read_words(&words).unwrap();
            assert_eq!(given.words, ["a"]);
            assert!(given.has("--why"));
            assert_eq!(given.value("--seeds"), Some("1-2"));
        }
        assert_eq!(read_words(&["--seeds=1-2"]).unwrap().value("--seeds"), Some("1-2"));
    }

    #[test]
    fn after_the_two_dashes_all_are_words() {
        let given = read_words(&["-", "--", "--why", "--", "-x"]).unwrap();
        assert_eq!(given.words, ["-", "--why", "--", "-x"]);
        assert!(!given.has("--why"));
    }

    #[test]
    fn wrong_calls() {
        for (words, said) in [
            (vec!["--wy"], "unknown option --wy"),
            (vec!["-x"], "unknown option -x"),
            (vec!["--why", "--why"], "given twice"),
            (vec!["--why=1"], "takes no value"),
            (vec!["--seeds"], "needs a value"),
            (vec!["--seeds=1", "--seeds", "2"], "given twice"),
            (vec!["--\u{1b}[2J"], "unknown option --\\u{1b}[2J"),
        ] {
            let Failure(message) = read_words(&words).unwrap_err();
            assert!(message.contains(said), "{message}");
            assert!(message.contains("tickbound batch --help"), "{message}");
            assert!(!message.contains('\n'));
        }
    }

    #[test]
    fn numbers_are_spelt_in_one_way() {
        for (word, number) in [("0", Some(0)), ("4294967295", Some(u32::MAX)), ("10", Some(10))] {
            assert_eq!(number_of_32_bits(word), number);
        }
        for word in ["", "-1", "-0", "00", "01", "4294967296", " 1", "1x", "0x1", "+1", "1\n"] {
            assert_eq!(number_of_32_bits(word), None, "{word:?}");
        }
    }

    #[test]
    fn a_word_has_every_byte_of_its_argument() {
        for bytes in [&b"a.txt"[..], b"\xff\xfe", b"caf\xc3\xa9", b"\xef\x9e\x80", b"a\xc3", b"\xf0\x9f\x98\x80\x80"] {
            let word = word_of(OsStr::from_bytes(bytes));
            assert_eq!(bytes_of(&word), bytes);
        }
        assert_eq!(shown(&word_of(OsStr::from_bytes(b"\xff.txt"))), "\\xff.txt");
        assert_eq!(shown("caf\u{e9}\t"), "caf\u{e9}\\t");
    }

    #[test]
    fn standard_input_once() {
        let files = |names: &[&str]| names.iter().map(|name| name.to_string()).collect::<Vec<_>>();
        assert!(check_input_once("replay", &files(&["-", "a"])).is_ok());
        assert!(check_input_once("replay", &files(&["-", "-"])).is_err());
    }
}
