//! Reads the command line.
use crate::pieces::Mode;
use labyrinth::page;
use std::ffi::{OsStr, OsString};

pub const USAGE: &str = "labyrinth seal|open --mode cbc|ctr -n N -l L --key-file F --start HEX [--offset Q] [--set FILE] IN OUT
       labyrinth tag -l L --key-file F [--length T] [--set FILE] IN
       labyrinth verify -l L --key-file F --tag HEX [--set FILE] IN
       labyrinth wrap|unwrap -l L --key-file F [--set FILE] IN OUT
       labyrinth page write -l L --key-file F --tag-key-file F [--tag-l L] [--set FILE] [--tag-set FILE] --number N --day D --title TEXT --start HEX IN OUT
       labyrinth page list FILE..
       labyrinth page open -l L --key-file F --tag-key-file F [--tag-l L] [--set FILE] [--tag-set FILE] IN OUT
       labyrinth keys new REGISTER
       labyrinth keys add --number N [--replaces M] REGISTER WRAPPED
       labyrinth keys find --number N [--own] REGISTER [OUT]
       labyrinth keys list REGISTER..";

pub enum Request {
    Help,
    Work(Arguments),
    Tag(TagArguments),
    Wrap(WrapArguments),
    Write(PageArguments, PageText),
    List(Vec<OsString>),
    Open(PageArguments),
    NewKeys(OsString),
    AddKey(AddArguments),
    FindKey(FindArguments),
    ListKeys(Vec<OsString>),
}

pub struct Arguments {
    pub seal: bool,
    pub mode: Mode,
    pub n: usize,
    pub l: usize,
    pub key_file: OsString,
    pub set_file: Option<OsString>,
    pub start: Vec<u8>,
    pub offset: u64,
    pub input: OsString,
    pub output: OsString,
}

pub struct TagArguments {
    pub task: Tagging,
    pub l: usize,
    pub key_file: OsString,
    pub set_file: Option<OsString>,
    pub input: OsString,
}

pub struct WrapArguments {
    pub wrap: bool,
    pub l: usize,
    pub key_file: OsString,
    pub set_file: Option<OsString>,
    pub input: OsString,
    pub output: OsString,
}

/// What writing and opening a page record have in common. The tag key's set is the sealing key's where it has no file of its own.
pub struct PageArguments {
    pub l: usize,
    pub key_file: OsString,
    pub set_file: Option<OsString>,
    pub tag_l: usize,
    pub tag_key_file: OsString,
    pub tag_set_file: Option<OsString>,
    pub input: OsString,
    pub output: OsString,
}

/// What is written of a page beside its body.
pub struct PageText {
    pub number: u32,
    pub day: u32,
    /// Padded with spaces to a title's length; a longer one is kept as it is, and the library refuses it.
    pub title: Vec<u8>,
    pub start: Vec<u8>,
}

/// A key for a register. Any numbers: the library refuses what it doesn't take.
pub struct AddArguments {
    pub number: u16,
    /// 0 for none.
    pub replaces: u16,
    pub register: OsString,
    pub wrapped: OsString,
}

pub struct FindArguments {
    pub number: u16,
    /// OUT gets the number's own key, replaced or not.
    pub own: bool,
    pub register: OsString,
    pub output: Option<OsString>,
}

pub enum Tagging {
    /// Makes a tag of so many bytes.
    Make(usize),
    /// Verifies this tag.
    Verify(Vec<u8>),
}

const WORDS: [&str; 6] = ["seal", "open", "tag", "verify", "wrap", "unwrap"];
/// What follows the word page, and the word keys.
const PAGE_WORDS: [&str; 3] = ["page write", "page list", "page open"];
const KEYS_WORDS: [&str; 4] = ["keys new", "keys add", "keys find", "keys list"];
const KEYED: [&str; 8] = ["seal", "open", "tag", "verify", "wrap", "unwrap", "page write", "page open"];
const TWO_KEYS: [&str; 2] = ["page write", "page open"];
/// Each option with the words that take it.
const OPTIONS: [(&str, &[&str]); 17] = [
    ("--mode", &["seal", "open"]),
    ("-n", &["seal", "open"]),
    ("-l", &KEYED),
    ("--key-file", &KEYED),
    ("--start", &["seal", "open", "page write"]),
    ("--offset", &["seal", "open"]),
    ("--length", &["tag"]),
    ("--tag", &["verify"]),
    ("--set", &KEYED),
    ("--tag-l", &TWO_KEYS),
    ("--tag-key-file", &TWO_KEYS),
    ("--tag-set", &TWO_KEYS),
    ("--number", &["page write", "keys add", "keys find"]),
    ("--day", &["page write"]),
    ("--title", &["page write"]),
    ("--replaces", &["keys add"]),
    (OWN, &["keys find"]),
];
/// The one option without a value.
const OWN: &str = "--own";
/// A tag's length where --length is left out.
const WHOLE_TAG: usize = 16;

/// Options may stand anywhere; each at most once; -- ends them.
pub fn read(words: impl Iterator<Item = OsString>) -> Result<Request, String> {
    let mut values: [Option<OsString>; OPTIONS.len()] = Default::default();
    let mut operands = Vec::new();
    let (mut words, mut ended) = (words, false);
    while let Some(word) = words.next() {
        let text = word.to_string_lossy().into_owned();
        if ended || text == "-" || !text.starts_with('-') {
            operands.push(word);
        } else if text == "--" {
            ended = true;
        } else if text == "--help" || text == "-h" {
            return Ok(Request::Help);
        } else if let Some(which) = OPTIONS.iter().position(|(option, _)| *option == text) {
            let value = if text == OWN { OsString::new() } else { words.next().ok_or(format!("{text} lacks its value"))? };
            if values[which].replace(value).is_some() {
                return Err(format!("{text} stands twice"));
            }
        } else {
            return Err(format!("unknown option {text}"));
        }
    }
    let (word, names) = first_word(operands)?;
    for ((option, takers), value) in OPTIONS.iter().zip(&values) {
        if value.is_some() && !takers.contains(&word) {
            let why = match (*option, word) {
                ("-n", "tag" | "verify") => ": a tag is always at n = 1",
                ("-n", "wrap" | "unwrap") => ": a wrapped key is always at n = 1",
                ("-n" | "-l" | "--key-file" | "--set", "keys new" | "keys add" | "keys find" | "keys list") => ": it unwraps nothing",
                ("-n", _) => ": a page record is always at n = 1",
                (_, "page list") => ": it needs no key",
                _ => "",
            };
            return Err(format!("'{word}' takes no {option}{why}"));
        }
    }
    let [mode, n, l, key_file, start, offset, length, tag, set_file, tag_l, tag_key_file, tag_set_file, given_number, day, title, replaces, own] =
        values;
    match word {
        "tag" | "verify" => {
            let [input] = files(names, "IN is")?;
            let l = size_of(l, "-l")?;
            let key_file = key_file.ok_or("--key-file is missing")?;
            let task = match (word, length) {
                ("verify", _) => Tagging::Verify(bytes_of(tag, "--tag")?),
                (_, None) => Tagging::Make(WHOLE_TAG),
                (_, length) => Tagging::Make(size_of(length, "--length")?),
            };
            check_names(&[&key_file], &[&set_file], &[&input])?;
            Ok(Request::Tag(TagArguments { task, l, key_file, set_file, input }))
        }
        "wrap" | "unwrap" => {
            let [input, output] = files(names, "IN and OUT are")?;
            let l = size_of(l, "-l")?;
            let key_file = key_file.ok_or("--key-file is missing")?;
            check_names(&[&key_file], &[&set_file], &[&input, &output])?;
            Ok(Request::Wrap(WrapArguments { wrap: word == "wrap", l, key_file, set_file, input, output }))
        }
        "page list" => Ok(Request::List(listed(names, "no words besides 'page list', where FILE is wanted, or several")?)),
        "keys list" => Ok(Request::ListKeys(listed(names, "no words besides 'keys list', where REGISTER is wanted, or several")?)),
        "keys new" => {
            let [register] = files(names, "REGISTER is")?;
            all_named([&register])?;
            written(&register)?;
            Ok(Request::NewKeys(register))
        }
        "keys add" => {
            let [register, wrapped] = files(names, "REGISTER and WRAPPED are")?;
            let number = number_of(given_number, "--number", "2^16")?;
            let replaces = replaces.map_or(Ok(0), |replaces| number_of(Some(replaces), "--replaces", "2^16"))?;
            all_named([&register, &wrapped])?;
            written(&register)?;
            Ok(Request::AddKey(AddArguments { number, replaces, register, wrapped }))
        }
        "keys find" => {
            let mut names = names;
            all_named(&names)?;
            let output = if names.len() == 2 { names.pop() } else { None };
            let [register] = files(names, "REGISTER is, or REGISTER and OUT are,")?;
            let number = number_of(given_number, "--number", "2^16")?;
            Ok(Request::FindKey(FindArguments { number, own: own.is_some(), register, output }))
        }
        "page write" | "page open" => {
            let [input, output] = files(names, "IN and OUT are")?;
            let l = size_of(l, "-l")?;
            let key_file = key_file.ok_or("--key-file is missing")?;
            let tag_l = tag_l.map_or(Ok(l), |tag_l| size_of(Some(tag_l), "--tag-l"))?;
            let tag_key_file = tag_key_file.ok_or("--tag-key-file is missing")?;
            let text = match word {
                "page write" => Some(PageText {
                    number: number_of(given_number, "--number", "2^32")?,
                    day: number_of(day, "--day", "2^32")?,
                    title: padded(text_of(title, "--title")?),
                    start: bytes_of(start, "--start")?,
                }),
                _ => None,
            };
            check_names(&[&key_file, &tag_key_file], &[&set_file, &tag_set_file], &[&input, &output])?;
            let page = PageArguments { l, key_file, set_file, tag_l, tag_key_file, tag_set_file, input, output };
            Ok(match text {
                Some(text) => Request::Write(page, text),
                None => Request::Open(page),
            })
        }
        _ => {
            let [input, output] = files(names, "IN and OUT are")?;
            let mode = match text_of(mode, "--mode")?.as_str() {
                "cbc" => Mode::Cbc,
                "ctr" => Mode::Ctr,
                other => return Err(format!("--mode is cbc or ctr, not '{other}'")),
            };
            let n = size_of(n, "-n")?;
            let l = size_of(l, "-l")?;
            let key_file = key_file.ok_or("--key-file is missing")?;
            let start = bytes_of(start, "--start")?;
            let offset = match (mode, offset) {
                (_, None) => 0,
                (Mode::Ctr, offset) => number(&text_of(offset, "--offset")?)
                    .ok_or("--offset takes a number below 2^64, decimal or 0x and hexadecimal digits")?,
                (Mode::Cbc, _) => return Err("--offset is for --mode ctr only".to_string()),
            };
            check_names(&[&key_file], &[&set_file], &[&input, &output])?;
            Ok(Request::Work(Arguments { seal: word == "seal", mode, n, l, key_file, set_file, start, offset, input, output }))
        }
    }
}

fn files<const COUNT: usize>(names: Vec<OsString>, wanted: &str) -> Result<[OsString; COUNT], String> {
    names.try_into().map_err(|names: Vec<_>| format!("{} words besides the options and the first, where {wanted} wanted", names.len()))
}

/// The word that says what to do, two words for a page record or a register, and the names behind it.
fn first_word(mut operands: Vec<OsString>) -> Result<(&'static str, Vec<OsString>), String> {
    let names = operands.split_off(operands.len().min(1));
    let first = operands.pop().unwrap_or_default();
    let (pairs, wanted): (&[&str], _) = match first.to_str() {
        Some("page") => (&PAGE_WORDS, "'write', 'list' or 'open' comes after 'page'"),
        Some("keys") => (&KEYS_WORDS, "'new', 'add', 'find' or 'list' comes after 'keys'"),
        _ => {
            let wanted = "'seal', 'open', 'tag', 'verify', 'wrap', 'unwrap', 'page' or 'keys' comes first";
            let unknown = format!("{wanted}, not '{}'", first.to_string_lossy());
            return Ok((WORDS.iter().find(|word| first == **word).ok_or(unknown)?, names));
        }
    };
    let mut names = names.into_iter();
    let second = names.next().unwrap_or_default();
    let both = format!("{} {}", first.to_string_lossy(), second.to_string_lossy());
    let unknown = format!("{wanted}, not '{}'", second.to_string_lossy());
    Ok((pairs.iter().find(|word| both == **word).ok_or(unknown)?, names.collect()))
}

/// IN stands first.
fn check_names(key_files: &[&OsStr], set_files: &[&Option<OsString>], names: &[&OsStr]) -> Result<(), String> {
    let sets: Vec<&OsStr> = set_files.iter().filter_map(|file| file.as_deref()).collect();
    let read = key_files.iter().chain(&sets).chain(&names[..1]);
    all_named(read.clone().chain(names))?;
    match read.filter(|name| **name == "-").count() {
        0 | 1 => Ok(()),
        _ if key_files.len() > 1 => Err("of the keys, the sets and IN only one can come from standard input".to_string()),
        _ if sets.is_empty() => Err("the key and IN can't both come from standard input".to_string()),
        _ => Err("of the key, the set and IN only one can come from standard input".to_string()),
    }
}

fn all_named<S: AsRef<OsStr>>(names: impl IntoIterator<Item = S>) -> Result<(), String> {
    match names.into_iter().any(|name| name.as_ref().is_empty()) {
        true => Err("a file's name is empty".to_string()),
        false => Ok(()),
    }
}

/// The files of a list, of which there is one at least.
fn listed(names: Vec<OsString>, none: &str) -> Result<Vec<OsString>, String> {
    if names.is_empty() {
        return Err(none.to_string());
    }
    all_named(&names)?;
    match names.iter().filter(|name| *name == "-").count() {
        0 | 1 => Ok(names),
        _ => Err("standard input stands twice".to_string()),
    }
}

/// A register to be written has a name.
fn written(register: &OsStr) -> Result<(), String> {
    match register == "-" {
        true => Err("REGISTER is a file here, not a standard stream: it is written, and has to keep its name".to_string()),
        false => Ok(()),
    }
}

fn text_of(value: Option<OsString>, option: &str) -> Result<String, String> {
    value.ok_or(format!("{option} is missing"))?.into_string().map_err(|_| format!("{option}: not a text"))
}

fn size_of(value: Option<OsString>, option: &str) -> Result<usize, String> {
    size(&text_of(value, option)?).ok_or(format!("{option} takes a number"))
}

fn bytes_of(value: Option<OsString>, option: &str) -> Result<Vec<u8>, String> {
    hex(text_of(value, option)?.as_bytes()).map_err(|what| format!("{option}: {what}"))
}

/// Decimal digits; a number too large for the type is as wrong as the largest, and the library refuses that.
fn size(text: &str) -> Option<usize> {
    if text.is_empty() || !text.bytes().all(|b| b.is_ascii_digit()) {
        return None;
    }
    Some(text.parse().unwrap_or(usize::MAX))
}

fn number(text: &str) -> Option<u64> {
    let (digits, radix) = match text.strip_prefix("0x") {
        Some(digits) => (digits, 16),
        None => (text, 10),
    };
    // from_str_radix takes a sign too
    if !digits.chars().all(|c| c.is_digit(radix)) {
        return None;
    }
    u64::from_str_radix(digits, radix).ok()
}

/// A number that fits the type, which ends before `end`.
fn number_of<T: TryFrom<u64>>(value: Option<OsString>, option: &str, end: &str) -> Result<T, String> {
    let found = number(&text_of(value, option)?).and_then(|number| T::try_from(number).ok());
    found.ok_or(format!("{option} takes a number below {end}, decimal or 0x and hexadecimal digits"))
}

/// A title's bytes, with spaces behind them as far as there is room.
fn padded(title: String) -> Vec<u8> {
    let mut title = title.into_bytes();
    title.resize(title.len().max(page::TITLE), b' ');
    title
}

/// Bytes from hexadecimal digits, two a byte, first byte first; white space is ignored. What is wrong is told by its place, since the
/// text may be a key.
pub fn hex(text: &[u8]) -> Result<Vec<u8>, String> {
    let mut digits = Vec::new();
    for (place, byte) in text.iter().enumerate() {
        match char::from(*byte).to_digit(16) {
            Some(digit) => digits.push(digit as u8),
            None if byte.is_ascii_whitespace() => (),
            None => return Err(format!("character {} is no hexadecimal digit", place + 1)),
        }
    }
    if digits.len() % 2 != 0 {
        return Err(format!("an odd number of hexadecimal digits ({}): two make a byte", digits.len()));
    }
    Ok(digits.chunks(2).map(|pair| pair[0] << 4 | pair[1]).collect())
}

#[cfg(test)]
mod tests {
    use super::*;

    #[test]
    fn digits_to_bytes() {
        assert_eq!(hex(b"00fF 1\n2\t\r\n"), Ok(vec![0x00, 0xFF, 0x12]));
        assert_eq!(hex(b" \n"), Ok(vec![]));
        for wrong in ["0", "000", "0g", "0x00", "-1", "+1", "00\u{a0}00", "00,00", "00\u{0}"] {
            assert!(hex(wrong.as_bytes()).is_err(), "{wrong}");
        }
    }

    #[test]
    fn numbers() {
        assert_eq!((size("4"), size("0"), size("99999999999999999999999")), (Some(4), Some(0), Some(usize::MAX)));
        assert_eq!((number("17"), number("0x1F"), number("18446744073709551615")), (Some(17), Some(31), Some(u64::MAX)));
        for wrong in ["", "-1", "+1", "1 ", "x", "0x"] {
            assert_eq!((size(wrong), number(wrong)), (None, None), "{wrong}");
        }
        let short = |text: &str| number_of::<u32>(Some(text.into()), "--day", "2^32").ok();
        assert_eq!(
            (short("4294967295"), short("0xFFffFFff"), short("4294967296"), short("-1"), short("")),
            (Some(u32::MAX), Some(u32::MAX), None, None, None)
        );
        let shorter = |text: &str| number_of::<u16>(Some(text.into()), "--replaces", "2^16");
        assert_eq!((shorter("65535"), shorter("0xFFff"), shorter("0")), (Ok(u16::MAX), Ok(u16::MAX), Ok(0)));
        assert_eq!(shorter("65536"), Err("--replaces takes a number below 2^16, decimal or 0x and hexadecimal digits".to_string()));
        assert_eq!((number("18446744073709551616"), number("ff"), number("0x+f"), number("0x10000000000000000")), (None, None, None, None));
    }

    #[test]
    fn titles() {
        assert_eq!(padded("a".to_string()), [b"a".as_slice(), &[b' '; 31]].concat());
        assert_eq!(padded("\u{416}".repeat(16)), "\u{416}".repeat(16).into_bytes());
        assert_eq!(padded("\u{416}".repeat(17)).len(), 34);
        assert_eq!(padded(String::new()), [b' '; 32]);
    }
}
