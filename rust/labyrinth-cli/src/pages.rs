//! Page records: written from a page's parts, listed without a key, opened. IN and OUT are held in memory as a whole; they are short.
use crate::arguments::{PageArguments, PageText};
use crate::{check_output, load_set, named, read_key, read_most, refused, shown, write_whole, Stop};
use labyrinth::page::{self, Keys, Page, BLOCK, MOST_BLOCKS, TITLE};
use labyrinth::{Error, Key, Start, Store, WorkingKey};
use std::ffi::OsStr;
use std::fs::Metadata;

const MOST_BODY: usize = BLOCK * MOST_BLOCKS;
const ONE_FILE: &str = "IN and OUT are one file: the only copy isn't replaced";

/// The two keys of a record with the store that has their sets, and what the files are that they came from.
struct Held {
    store: Store,
    sealing: WorkingKey,
    tagging: WorkingKey,
    key_files: [Metadata; 2],
    set_files: [Option<Metadata>; 2],
}

impl Held {
    fn keys(&self) -> Keys<'_> {
        Keys { store: &self.store, sealing: &self.sealing, tagging: &self.tagging }
    }

    fn check_output(&self, name: &OsStr, input: &Metadata) -> Result<(), Stop> {
        let ([sealing, tagging], [set, tag_set]) = (&self.key_files, &self.set_files);
        check_output(name, ONE_FILE, input, &[sealing, tagging], &[set, tag_set])
    }
}

/// Reads the keys and the sets; 14, 13, then 2 and 3 of the sealing key, then of the tag key. The sealing key's set is set 1 here, the tag
/// key's set 2; the tag key's is the sealing key's if it has none of its own.
fn read_keys(a: &PageArguments) -> Result<Held, Stop> {
    let (sealing, key_file) = read_key(&a.key_file)?;
    let (tagging, tag_key_file) = read_key(&a.tag_key_file)?;
    let mut store = Store::fresh();
    let set_file = a.set_file.as_deref().map(|name| load_set(&mut store, 1, name)).transpose()?;
    let tag_set_file = a.tag_set_file.as_deref().map(|name| load_set(&mut store, 2, name)).transpose()?;
    let set = if set_file.is_some() { 1 } else { 0 };
    let tag_set = if tag_set_file.is_some() { 2 } else { set };
    let expand = |l, bytes: &[u8], set, which: &str| {
        Key { n: 1, l, bytes }.expand(&store, set).map_err(|error| {
            let Stop(status, message) = refused(error, 1, l, bytes.len(), || "this should not happen".to_string());
            Stop(status, format!("the {which} key: {message}"))
        })
    };
    let (sealing, tagging) = (expand(a.l, &sealing, set, "sealing")?, expand(a.tag_l, &tagging, tag_set, "tag")?);
    Ok(Held { store, sealing, tagging, key_files: [key_file, tag_key_file], set_files: [set_file, tag_set_file] })
}

/// Writes the record of the body that IN holds to OUT.
pub fn write(a: &PageArguments, text: &PageText) -> Result<(), Stop> {
    let held = read_keys(a)?;
    let made = |body: &[u8]| {
        let page = Page { number: text.number, day: text.day, title: &text.title, start: Start(&text.start), body };
        let mut record = vec![0; page::length(body.len() / BLOCK)];
        let refuse = |error| Stop(1, format!("refused with {}: {}", Error::number(error), why(error, text, body.len())));
        page::write(&held.keys(), &page, &mut record).map(|()| record).map_err(refuse)
    };
    // 19 and 6, before IN is opened
    made(&[])?;
    let (body, input) = read_most(&a.input, MOST_BODY)?;
    held.check_output(&a.output, &input)?;
    write_whole(&a.output, 0o666, &made(&body)?)
}

/// Why a page with a body of so many bytes is not written.
fn why(error: Error, text: &PageText, body: usize) -> String {
    match error {
        Error::RecordLayout => format!("the title has more than {TITLE} bytes (--title has {} in UTF-8)", text.title.len()),
        Error::StartLength => {
            format!("the start block isn't {BLOCK} bytes, {} digits (--start gives {} bytes)", 2 * BLOCK, text.start.len())
        }
        Error::SourceLength if body > MOST_BODY => {
            format!("the body has more than {MOST_BLOCKS} blocks of {BLOCK} bytes (IN has more than {MOST_BODY} bytes)")
        }
        Error::SourceLength => {
            let missing = BLOCK - body % BLOCK;
            format!("the body isn't whole blocks of {BLOCK} bytes (IN has {body} bytes, and {missing} are missing to the next whole block; nothing is padded)")
        }
        _ => "this should not happen".to_string(),
    }
}

/// Verifies the record that IN holds, and writes its body to OUT.
pub fn open(a: &PageArguments) -> Result<(), Stop> {
    let held = read_keys(a)?;
    let (record, input) = read_most(&a.input, page::length(MOST_BLOCKS))?;
    held.check_output(&a.output, &input)?;
    let entry = page::catalogue(&record).map_err(|error| no_record(&a.input, error, record.len()))?;
    let mut body = vec![0; BLOCK * entry.blocks];
    page::open(&held.keys(), &record, &mut body).map_err(|error| {
        let name = named(&a.input, "standard input");
        match error {
            Error::RecordTag => Stop(4, format!("{name}: no: {error}: altered, or written under another tag key or with other tables")),
            _ => Stop(1, format!("{name}: {error}")),
        }
    })?;
    write_whole(&a.output, 0o666, &body)
}

/// Number, day, blocks, the title without the spaces at its end, and the file's name.
pub fn line(name: &OsStr) -> Result<String, Stop> {
    let (record, _) = read_most(name, page::length(MOST_BLOCKS))?;
    let entry = page::catalogue(&record).map_err(|error| no_record(name, error, record.len()))?;
    let end = entry.title.iter().rposition(|byte| *byte != b' ').map_or(0, |last| last + 1);
    let (title, name) = (shown(&entry.title[..end]), shown(name.as_encoded_bytes()));
    Ok(format!("{:>10} {:>10} {:>5} \"{title}\" {name}\n", entry.number, entry.day, entry.blocks))
}

/// 19, and why so many bytes are no record.
fn no_record(name: &OsStr, error: Error, count: usize) -> Stop {
    let more = match count {
        _ if count > page::length(MOST_BLOCKS) => {
            format!("it has more than {} bytes, the most that a record has", page::length(MOST_BLOCKS))
        }
        _ if count < page::length(0) || (count - page::length(0)) % (1 + BLOCK) != 0 => {
            format!("it has {count} bytes, and a record has {} and {} for each block", page::length(0), 1 + BLOCK)
        }
        _ => "a command byte isn't where a record has it".to_string(),
    };
    Stop(1, format!("{}: refused with {}: no page record: {more}", named(name, "standard input"), error.number()))
}

#[cfg(test)]
mod tests {
    use super::*;

    #[test]
    fn why_it_is_none() {
        for (count, says) in [
            (0, "it has 0 bytes"),
            (76, "it has 76 bytes"),
            (77, "a command byte"),
            (93, "it has 93 bytes"),
            (94, "a command byte"),
            (69708, "it has 69708 bytes"),
            (69709, "a command byte"),
            (69710, "it has more than 69709 bytes"),
        ] {
            let Stop(status, message) = no_record(OsStr::new("some.page"), Error::RecordLayout, count);
            assert_eq!(status, 1);
            assert!(message.starts_with(&format!("some.page: refused with 19: no page record: {says}")), "{message}");
        }
    }
}
