//! The command labyrinth: seals and opens pages, makes and verifies their tags, wraps and unwraps keys, writes, lists and opens page records, and
//! keeps registers of keys. src/help.txt says how it is used and what its exit statuses are.
mod arguments;
mod keys;
mod output;
mod pages;
mod pieces;
mod progress;

use arguments::{Arguments, Request, TagArguments, Tagging, WrapArguments};
use labyrinth::{Error, Key, Store, WorkingKey};
use output::Output;
use pieces::{Failure, Mode, Task, PIECE};
use progress::Progress;
use std::ffi::{OsStr, OsString};
use std::fs::{self, File, Metadata};
use std::io::{self, Read, Write};
use std::os::unix::fs::MetadataExt;
use std::os::unix::io::AsFd;
use std::process::exit;

/// A message and the exit status: 1 refused with a number, 2 usage, 3 a file could not be read or written, 4 the tag is not IN's, or IN is no
/// wrapped key of this master key's, or no page record of this tag key's.
struct Stop(i32, String);

const LONGEST_KEY_FILE: u64 = 65536;
/// Bytes of a set: a substitution's and a row's.
const SUBSTITUTION: usize = 256;
const SET: usize = SUBSTITUTION + 8;

fn main() {
    let status = match run() {
        Ok(()) => 0,
        Err(Stop(status, message)) => {
            tell(&message);
            status
        }
    };
    exit(status)
}

fn tell(message: &str) {
    // not eprintln, which panics where standard error can't be written
    let _ = writeln!(io::stderr(), "labyrinth: {message}");
}

fn run() -> Result<(), Stop> {
    match arguments::read(std::env::args_os().skip(1)) {
        Ok(Request::Help) => print(include_str!("help.txt")),
        Ok(Request::Work(arguments)) => work(&arguments),
        Ok(Request::Tag(arguments)) => tag(&arguments),
        Ok(Request::Wrap(arguments)) => wrap(&arguments),
        Ok(Request::Write(arguments, text)) => pages::write(&arguments, &text),
        Ok(Request::List(names)) => list(&names, pages::line),
        Ok(Request::Open(arguments)) => pages::open(&arguments),
        Ok(Request::NewKeys(name)) => keys::new(&name),
        Ok(Request::AddKey(arguments)) => keys::add(&arguments),
        Ok(Request::FindKey(arguments)) => keys::find(&arguments),
        Ok(Request::ListKeys(names)) => list(&names, keys::lines),
        Err(message) => Err(Stop(2, format!("{message}\nusage: {}\nsee labyrinth --help", arguments::USAGE))),
    }
}

fn print(text: &str) -> Result<(), Stop> {
    let written = Output::standard().and_then(|mut output| output.write_all(text.as_bytes()).and_then(|()| output.finish()));
    written.map_err(|e| Stop(3, format!("standard output: {e}")))
}

fn work(a: &Arguments) -> Result<(), Stop> {
    let (key, key_file) = read_key(&a.key_file)?;
    let Tables { store, set, file: set_file } = read_set(a.set_file.as_deref())?;
    // 1, 2, 3 and 6, before any other file is opened: an empty run has no other refusal
    let refuse = |error| refused_page(a, key.len(), error, None);
    let working = Key { n: a.n, l: a.l, bytes: &key }.expand(&store, set).map_err(refuse)?;
    let task = Task { seal: a.seal, mode: a.mode, key: &working, store: &store, q: a.offset };
    task.piece(&a.start, &[], &mut []).map_err(refuse)?;

    let (input, held) = open_input(&a.input)?;
    let one_file = "IN and OUT are one file: nothing shows whether the key is right, so the only copy isn't replaced";
    check_output(&a.output, one_file, &held, &[&key_file], &[&set_file])?;
    let length = if held.is_file() && a.input != *"-" { Some(held.len()) } else { None };
    if let (Mode::Cbc, Some(length)) = (a.mode, length) {
        if length % (16 * a.n as u64) != 0 {
            return Err(refused_page(a, key.len(), Error::SourceLength, Some(length)));
        }
    }

    let unwritten = |e| unwritten(&a.output, e);
    let mut output = open_output(&a.output, 0o666).map_err(unwritten)?;
    let mut progress = Progress::new(length);
    let done = pieces::run(&task, &a.start, PIECE, input, &mut output, |bytes| progress.show(bytes));
    progress.clear();
    match done {
        Ok(_) => output.finish().map_err(unwritten),
        Err(Failure::Refused { error, length, written }) => {
            let Stop(status, mut message) = refused_page(a, key.len(), error, Some(length));
            if a.output == *"-" && written > 0 {
                message += &format!("; {written} bytes went to standard output before this was seen: throw them away");
            }
            Err(Stop(status, message))
        }
        Err(Failure::Read(e)) => Err(unread(&a.input, e)),
        Err(Failure::Write(e)) => Err(unwritten(e)),
    }
}

/// Makes the tag of IN, or verifies it. IN is held in memory as a whole.
fn tag(a: &TagArguments) -> Result<(), Stop> {
    let (bytes, _) = read_key(&a.key_file)?;
    let Tables { store, set, .. } = read_set(a.set_file.as_deref())?;
    let (mut made, option, count) = match &a.task {
        // a length past 16 is as wrong as 17
        Tagging::Make(count) => (vec![0; (*count).min(17)], "--length", *count),
        Tagging::Verify(tag) => (Vec::new(), "--tag", tag.len()),
    };
    let stop = |error| refused(error, 1, a.l, bytes.len(), || format!("{option} gives {count} bytes"));
    let key = Key { n: 1, l: a.l, bytes: &bytes }.expand(&store, set).map_err(stop)?;
    let mut run = |msg: &[u8]| match &a.task {
        Tagging::Make(_) => key.cmac(&store, msg, &mut made).map(|()| true),
        Tagging::Verify(tag) => key.cmac_verify(&store, msg, tag),
    };
    // 2, 3 and 11, before IN is opened: there is no other refusal
    run(&[]).map_err(stop)?;
    let mut page = Vec::new();
    let (mut input, _) = open_input(&a.input)?;
    input.read_to_end(&mut page).map_err(|e| unread(&a.input, e))?;
    let yes = run(&page).map_err(stop)?;
    match a.task {
        Tagging::Make(_) => print(&digits(&made)),
        Tagging::Verify(_) if yes => Ok(()),
        Tagging::Verify(_) => {
            let name = named(&a.input, "standard input");
            Err(Stop(4, format!("{name}: no: altered, or another page than this tag and key are for; do not open it")))
        }
    }
}

/// Wraps the key that IN holds, or unwraps it, to OUT. Both are key files, of hexadecimal digits.
fn wrap(a: &WrapArguments) -> Result<(), Stop> {
    let (bytes, key_file) = read_key(&a.key_file)?;
    let Tables { store, set, file: set_file } = read_set(a.set_file.as_deref())?;
    // 2 and 3, before IN is opened
    let stop = |error, count| refused(error, 1, a.l, bytes.len(), || format!("IN holds {count} bytes"));
    let master = Key { n: 1, l: a.l, bytes: &bytes }.expand(&store, set).map_err(|error| stop(error, 0))?;
    let (given, held) = read_key(&a.input)?;
    check_output(&a.output, "IN and OUT are one file: the only copy of a key isn't replaced", &held, &[&key_file], &[&set_file])?;

    let (run, room): (fn(&_, &_, &_, &mut _) -> _, _) =
        if a.wrap { (WorkingKey::wrap, given.len() + 8) } else { (WorkingKey::unwrap, given.len().saturating_sub(8)) };
    let mut made = vec![0; room];
    run(&master, &store, &given, &mut made).map_err(|error| match error {
        Error::CheckValue => {
            let name = named(&a.input, "standard input");
            Stop(4, format!("{name}: no: {error}: altered, or wrapped under another key or with other tables"))
        }
        _ => stop(error, given.len()),
    })?;
    // a key that was unwrapped is for its owner alone
    write_whole(&a.output, if a.wrap { 0o666 } else { 0o600 }, digits(&made).as_bytes())
}

/// Hexadecimal digits and a line end.
fn digits(bytes: &[u8]) -> String {
    bytes.iter().map(|byte| format!("{byte:02x}")).collect::<String>() + "\n"
}

fn unread(name: &OsStr, error: io::Error) -> Stop {
    Stop(3, format!("{}: {error}", named(name, "standard input")))
}

fn unwritten(name: &OsStr, error: io::Error) -> Stop {
    Stop(3, format!("{}: {error}", named(name, "standard output")))
}

fn named(name: &OsStr, stream: &str) -> String {
    if name == "-" {
        stream.to_string()
    } else {
        name.to_string_lossy().into_owned()
    }
}

fn open_input(name: &OsStr) -> Result<(File, Metadata), Stop> {
    let opened = if name == "-" { io::stdin().as_fd().try_clone_to_owned().map(File::from) } else { File::open(name) };
    opened.and_then(|file| file.metadata().map(|held| (file, held))).map_err(|e| unread(name, e))
}

/// Standard output, or a file that, where it is a new one, has the permissions `fresh`.
fn open_output(name: &OsStr, fresh: u32) -> io::Result<Output> {
    if name == "-" {
        Output::standard()
    } else {
        Output::beside(name.as_ref(), fresh)
    }
}

fn write_whole(name: &OsStr, fresh: u32, bytes: &[u8]) -> Result<(), Stop> {
    let written = open_output(name, fresh).and_then(|mut output| output.write_all(bytes).and_then(|()| output.finish()));
    written.map_err(|e| unwritten(name, e))
}

/// OUT may not be IN, which `one_file` says, a key file or a set file.
fn check_output(name: &OsStr, one_file: &str, input: &Metadata, keys: &[&Metadata], sets: &[&Option<Metadata>]) -> Result<(), Stop> {
    let Some(out) = there_now(name)? else { return Ok(()) };
    let what = if same(input, &out) {
        one_file
    } else if keys.iter().any(|file| same(file, &out)) {
        "OUT is the key file"
    } else if sets.iter().any(|file| file.as_ref().is_some_and(|file| same(file, &out))) {
        "OUT is the set file"
    } else {
        return Ok(());
    };
    Err(Stop(2, what.to_string()))
}

/// What OUT is now, if it is there.
fn there_now(name: &OsStr) -> Result<Option<Metadata>, Stop> {
    let found =
        if name == "-" { io::stdout().as_fd().try_clone_to_owned().map(File::from).and_then(|f| f.metadata()) } else { fs::metadata(name) };
    match found {
        Ok(held) => Ok(Some(held)),
        Err(e) if e.kind() == io::ErrorKind::NotFound => Ok(None),
        Err(e) => Err(unwritten(name, e)),
    }
}

fn same(a: &Metadata, b: &Metadata) -> bool {
    a.is_file() && b.is_file() && (a.dev(), a.ino()) == (b.dev(), b.ino())
}

/// What each file's lines are; after a file that has none, or can't be read, it goes on, and the largest status is the whole's.
fn list(names: &[OsString], lines: fn(&OsStr) -> Result<String, Stop>) -> Result<(), Stop> {
    let unwritten = |e| unwritten(OsStr::new("-"), e);
    let mut output = Output::standard().map_err(unwritten)?;
    let mut wrong = Vec::new();
    for name in names {
        match lines(name) {
            Ok(lines) => output.write_all(lines.as_bytes()).map_err(unwritten)?,
            Err(Stop(status, message)) => {
                tell(&message);
                wrong.push(status);
            }
        }
    }
    output.finish().map_err(unwritten)?;
    match wrong.iter().max() {
        Some(status) => Err(Stop(*status, format!("{} of {} were not listed", wrong.len(), names.len()))),
        None => Ok(()),
    }
}

/// Text from any bytes, fit for a terminal: what isn't UTF-8, control characters and others that can't be seen are written as escapes, and so
/// are quotation marks and backslashes.
fn shown(bytes: &[u8]) -> String {
    let mut text = String::new();
    for chunk in bytes.utf8_chunks() {
        for c in chunk.valid().chars() {
            match c {
                '\'' => text.push(c),
                _ => text.extend(c.escape_debug()),
            }
        }
        text.extend(chunk.invalid().iter().map(|byte| format!("\\x{byte:02x}")));
    }
    text
}

/// What a file holds, and one byte more at most than so many.
fn read_most(name: &OsStr, most: usize) -> Result<(Vec<u8>, Metadata), Stop> {
    let (file, held) = open_input(name)?;
    let mut bytes = Vec::new();
    file.take(most as u64 + 1).read_to_end(&mut bytes).map_err(|e| unread(name, e))?;
    Ok((bytes, held))
}

/// What a key file or a set file, `what`, holds.
fn read_small(name: &OsStr, what: &str) -> Result<(Vec<u8>, Metadata), Stop> {
    let (file, held) = open_input(name)?;
    let mut text = Vec::new();
    file.take(LONGEST_KEY_FILE + 1).read_to_end(&mut text).map_err(|e| unread(name, e))?;
    if text.len() as u64 > LONGEST_KEY_FILE {
        let shown = named(name, "standard input");
        return Err(Stop(2, format!("the {what} file {shown} has more than {LONGEST_KEY_FILE} bytes: it holds no {what}")));
    }
    Ok((text, held))
}

fn read_key(name: &OsStr) -> Result<(Vec<u8>, Metadata), Stop> {
    let (text, held) = read_small(name, "key")?;
    let key = arguments::hex(&text).map_err(|what| Stop(2, format!("the key file {}: {what}", named(name, "standard input"))))?;
    Ok((key, held))
}

/// The store with the set that a run uses, the set's number there, and what its file is.
struct Tables {
    store: Store,
    set: u64,
    file: Option<Metadata>,
}

/// The published set, or the one that a file holds.
fn read_set(name: Option<&OsStr>) -> Result<Tables, Stop> {
    let mut store = Store::fresh();
    let Some(name) = name else { return Ok(Tables { store, set: 0, file: None }) };
    let file = Some(load_set(&mut store, 1, name)?);
    Ok(Tables { store, set: 1, file })
}

/// Loads the set that a file holds, as 264 bytes, or in hexadecimal digits, which are more.
fn load_set(store: &mut Store, number: u64, name: &OsStr) -> Result<Metadata, Stop> {
    let (text, held) = read_small(name, "set")?;
    let shown = named(name, "standard input");
    let usage = |what: String| Stop(2, format!("the set file {shown}: {what}"));
    let wanted = format!("a set is {SET} bytes, a substitution of {SUBSTITUTION} and a row of 8, as they are or in hexadecimal digits");
    let set = match text.len() {
        SET => text,
        count => arguments::hex(&text).map_err(|what| usage(format!("{what}; it has {count} bytes, and {wanted}")))?,
    };
    let Ok::<[u8; SET], _>(set) = set.try_into() else { return Err(usage(wanted)) };
    let (substitution, row) = set.split_at(SUBSTITUTION);
    store.load(0, number, substitution, row.try_into().expect("8 bytes are left")).map_err(|error| {
        let again =
            (0..substitution.len()).find_map(|at| Some((substitution[..at].iter().position(|byte| *byte == substitution[at])?, at)));
        let more = match (error, again) {
            (Error::Substitution, Some((first, at))) => {
                format!(": bytes {first} and {at} of the substitution, from 0 on, are both {:02x}", substitution[at])
            }
            _ => String::new(),
        };
        Stop(1, format!("{error} (the set file {shown}{more})"))
    })?;
    Ok(held)
}

/// The message names the number and what was wrong in this run, for numbers past 3 by `own`; it shows nothing of the key but its length.
fn refused(error: Error, n: usize, l: usize, key: usize, own: impl FnOnce() -> String) -> Stop {
    let more = match error {
        Error::BlockSize => format!("n is {n}"),
        Error::KeySize => format!("l is {l}"),
        Error::KeyLength => format!("n = {n} and l = {l} take {} bytes ({} digits), the key file holds {key} bytes", 8 * n * l, 16 * n * l),
        _ => own(),
    };
    Stop(1, format!("{error} ({more})"))
}

fn refused_page(a: &Arguments, key: usize, error: Error, length: Option<u64>) -> Stop {
    let n = a.n;
    refused(error, n, a.l, key, || match error {
        Error::StartLength => format!("n = {n} takes {} bytes ({} digits), --start gives {} bytes", 16 * n, 32 * n, a.start.len()),
        Error::SourceLength => {
            let length = length.map_or("?".to_string(), |x| x.to_string());
            format!("CBC takes whole blocks only, of {} bytes at n = {n}, and nothing is padded; IN has {length} bytes", 16 * n)
        }
        _ => "this should not happen".to_string(),
    })
}

#[cfg(test)]
mod tests {
    use super::*;

    #[test]
    fn nothing_raw_to_a_terminal() {
        assert_eq!(shown("Of the harbour's, 2nd: \u{416}\u{e9}\u{4e2d}".as_bytes()), "Of the harbour's, 2nd: \u{416}\u{e9}\u{4e2d}");
        assert_eq!(shown(b"\x1b[2J\r\n\t\0\x7f\"\\"), r#"\u{1b}[2J\r\n\t\0\u{7f}\"\\"#);
        // cut inside a character, a byte that begins none, a surrogate
        assert_eq!(shown(b"\xd0\x96\xd0"), "\u{416}\\xd0");
        assert_eq!(shown(b"\xffa\xed\xa0\x80"), r"\xffa\xed\xa0\x80");
        // C1 controls, a change of direction, a line separator, no width, another space
        assert_eq!(shown("\u{9b}\u{202e}\u{2028}\u{200b}\u{a0}".as_bytes()), r"\u{9b}\u{202e}\u{2028}\u{200b}\u{a0}");
        for byte in 0..=255 {
            let text = shown(&[byte]);
            assert!(text.chars().all(|c| (' '..='~').contains(&c)), "{byte:02x} is shown as {text:?}");
            assert_eq!(text.len() > 1, !(b' '..=b'~').contains(&byte) || byte == b'"' || byte == b'\\');
        }
    }
}
