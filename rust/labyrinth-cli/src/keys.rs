//! Registers of page keys: made empty, added to, searched and listed. A register's file is the 2,824 bytes of its layout, and is replaced as a whole.
use crate::arguments::{AddArguments, FindArguments};
use crate::output::Output;
use crate::{
    check_output, digits, named, open_output, print, read_key, read_most, same, shown, tell, unread, unwritten, write_whole, Stop,
};
use labyrinth::register::{Entry, Register, Rule, MOST_ENTRIES, WRAPPED};
use labyrinth::Error;
use std::collections::HashSet;
use std::ffi::OsStr;
use std::fs::{self, File, OpenOptions};
use std::io::{self, Read, Write};

/// Of a new register: it has no tag, so it is for its owner alone to write.
const FRESH: u32 = 0o644;

/// An empty register, where there is no file yet.
pub fn new(name: &OsStr) -> Result<(), Stop> {
    let made = Output::beside(name.as_ref(), FRESH)
        .and_then(|mut output| output.write_all(Register::new().as_bytes()).and_then(|()| output.finish_new()));
    made.map_err(|e| unwritten(name, e))
}

/// Adds the key that WRAPPED holds to REGISTER.
pub fn add(a: &AddArguments) -> Result<(), Stop> {
    let file = locked(&a.register).map_err(|e| unread(&a.register, e))?;
    let mut bytes = Vec::new();
    (&file).take(Register::LENGTH as u64 + 1).read_to_end(&mut bytes).map_err(|e| unread(&a.register, e))?;
    let mut register = register_of(&a.register, bytes)?;
    let (wrapped, held) = read_key(&a.wrapped)?;
    if file.metadata().is_ok_and(|register| same(&register, &held)) {
        return Err(Stop(2, "REGISTER and WRAPPED are one file".to_string()));
    }
    let wrapped: [u8; WRAPPED] = wrapped.try_into().map_err(|wrapped: Vec<u8>| {
        let (name, count) = (named(&a.wrapped, "standard input"), wrapped.len());
        Stop(2, format!("the key file {name}: a register takes {WRAPPED} bytes, what wrap makes of a key of 32; it holds {count}"))
    })?;
    register.add(a.number, a.replaces, &wrapped).map_err(|error| {
        let (name, number) = (a.register.to_string_lossy(), error.number());
        Stop(1, format!("{name}: refused with {number}: {}", why(error, a, &register.entries())))
    })?;
    write_whole(&a.register, FRESH, register.as_bytes())
}

/// A register's file, for this run alone: who else adds a key waits, so that none is lost. Whoever had it before has put another in its place.
fn locked(name: &OsStr) -> io::Result<File> {
    loop {
        let file = OpenOptions::new().read(true).write(true).open(name)?;
        let held = file.metadata()?;
        if !held.is_file() {
            return Err(io::Error::other("not a regular file"));
        }
        file.lock()?;
        if same(&held, &fs::metadata(name)?) {
            return Ok(file);
        }
    }
}

/// Why a key is not added to these entries.
fn why(error: Error, a: &AddArguments, entries: &[Entry]) -> String {
    match (error, entries.iter().find(|entry| entry.replaces == a.replaces)) {
        (Error::KeyNumber, _) if a.number == 0 => "a key's number is never 0".to_string(),
        (Error::KeyNumber, _) => format!("it has key {} already", a.number),
        (Error::NotInRegister, _) if entries.iter().all(|entry| entry.number != a.replaces) => format!("it has no key {}", a.replaces),
        (Error::NotInRegister, Some(by)) => format!("key {} is replaced already, by {}", a.replaces, by.number),
        (Error::RegisterFull, _) => format!("it has {MOST_ENTRIES} keys, and no room for more"),
        _ => "this should not happen".to_string(),
    }
}

fn register_of(name: &OsStr, bytes: Vec<u8>) -> Result<Register, Stop> {
    let bytes = bytes.try_into().map_err(|bytes: Vec<u8>| {
        let has = if bytes.len() > Register::LENGTH { "more".to_string() } else { bytes.len().to_string() };
        Stop(2, format!("{}: no register: one has {} bytes, this has {has}", named(name, "standard input"), Register::LENGTH))
    })?;
    Ok(Register::from_bytes(bytes))
}

/// Tells what a number's key is now, and writes it, or with --own the number's own, wrapped, to OUT, if there is one: what is told goes to standard
/// error if OUT is standard output.
pub fn find(a: &FindArguments) -> Result<(), Stop> {
    let (bytes, held) = read_most(&a.register, Register::LENGTH)?;
    let register = register_of(&a.register, bytes)?;
    if let Some(name) = &a.output {
        check_output(name, "REGISTER and OUT are one file: a register isn't replaced by a key", &held, &[], &[])?;
    }
    let refused = |error: Error| {
        let (name, number) = (named(&a.register, "standard input"), error.number());
        Stop(1, format!("{name}: refused with {number}: it has no key {}", a.number))
    };
    let found = register.find(a.number).map_err(refused)?;
    let entries = register.entries();
    let chain = entries.iter().position(|entry| entry.number == a.number).map_or(Vec::new(), |first| register.chain(first));
    let rule = match found.rule {
        Rule::Current => "still current",
        Rule::Replaced => "replaced",
    };
    let chain: Vec<String> = chain.iter().map(|&at| entries[at].number.to_string()).collect();
    let (now, followed, chain) = (found.entry.number, found.followed, chain.join(ARROW));
    let mut told = format!("key {}: {rule}; key now: {now}; replacements followed: {followed}; chain: {chain}", a.number);
    let Some(name) = &a.output else { return print(&(told + "\n")) };
    let mut given = found.entry;
    if a.own {
        given = register.own(a.number).map_err(refused)?;
        told += &format!("; given: {}'s own key, for pages sealed under it", a.number);
    }
    let unwritten = |e| unwritten(name, e);
    let mut output = open_output(name, 0o666).map_err(unwritten)?;
    output.write_all(digits(&given.wrapped).as_bytes()).map_err(unwritten)?;
    // before OUT has its name: with nothing told there is no OUT
    match name == "-" {
        true => tell(&told),
        false => print(&(told + "\n"))?,
    }
    output.finish().map_err(unwritten)
}

const ARROW: &str = " -> ";

pub fn lines(name: &OsStr) -> Result<String, Stop> {
    let (bytes, _) = read_most(name, Register::LENGTH)?;
    Ok(format!("{}: {}", shown(name.as_encoded_bytes()), listing(&register_of(name, bytes)?)))
}

/// How many keys and chains there are, and a line for each chain, from an entry on that no other leads to. What adding never makes is told.
fn listing(register: &Register) -> String {
    let (entries, count) = (register.entries(), register.count());
    let chains: Vec<Vec<usize>> = (0..entries.len()).map(|place| register.chain(place)).collect();
    let reached: HashSet<usize> = chains.iter().filter_map(|chain| chain.get(1).copied()).collect();
    let heads: Vec<usize> = (0..entries.len()).filter(|place| !reached.contains(place)).collect();
    let mut top = format!("keys: {} of {MOST_ENTRIES}; chains: {}", entries.len(), heads.len());
    let (mut text, mut odd, mut above) = (String::new(), false, HashSet::new());
    if count > entries.len() as u64 {
        top += &format!("; the count, {count}, is read as {MOST_ENTRIES}");
        odd = true;
    }
    for head in heads {
        let mut notes: Vec<String> = unreached(&entries, head).into_iter().collect();
        let mut numbers = Vec::new();
        for &place in &chains[head] {
            let number = entries[place].number;
            if !above.insert(place) {
                numbers.push(format!("[{number}]"));
                notes.push("[] is in a line above too".to_string());
                continue;
            }
            numbers.push(number.to_string());
            if number == 0 {
                notes.push("0 is never found".to_string());
            } else if entries[..place].iter().any(|entry| entry.number == number) {
                notes.push(format!("another {number} comes first, and is found"));
            }
        }
        notes.dedup();
        odd |= !notes.is_empty();
        text += &format!("    {} (current)", numbers.join(ARROW));
        notes.iter().for_each(|note| text += &format!("; {note}"));
        text.push('\n');
    }
    if odd {
        top += "; made by hand, or altered";
    }
    top + "\n" + &text
}

/// Why no chain leads to an entry that replaces some number.
fn unreached(entries: &[Entry], place: usize) -> Option<String> {
    let Entry { number, replaces, .. } = entries[place];
    let has = |entry: &Entry| entry.number == replaces;
    let why = match entries[..place].iter().position(has) {
        _ if replaces == 0 => return None,
        Some(first) => {
            let before = entries[first + 1..place].iter().find(|entry| entry.replaces == replaces)?;
            format!("which {} replaced before", before.number)
        }
        None if number == replaces => "itself".to_string(),
        None if entries[place..].iter().any(has) => "which comes behind it".to_string(),
        None => "which isn't there".to_string(),
    };
    Some(format!("{number} replaces {replaces}, {why}"))
}

#[cfg(test)]
mod tests {
    use super::*;

    fn by_hand(count: u64, numbers: &[(u16, u16)]) -> Register {
        let mut bytes = [0; Register::LENGTH];
        bytes[..8].copy_from_slice(&count.to_le_bytes());
        for (i, (number, replaces)) in numbers.iter().enumerate() {
            bytes[8 + 44 * i..10 + 44 * i].copy_from_slice(&number.to_le_bytes());
            bytes[10 + 44 * i..12 + 44 * i].copy_from_slice(&replaces.to_le_bytes());
        }
        Register::from_bytes(bytes)
    }

    #[test]
    fn chains_listed() {
        type Case = (&'static [(u16, u16)], &'static str, &'static [&'static str]);
        let cases: [Case; 11] = [
            (&[], "keys: 0 of 64; chains: 0", &[]),
            (&[(17, 0), (5, 0), (23, 17), (40, 23)], "keys: 4 of 64; chains: 2", &["17 -> 23 -> 40 (current)", "5 (current)"]),
            (
                &[(5, 7), (7, 0), (9, 99), (4, 4)],
                "keys: 4 of 64; chains: 4; made by hand, or altered",
                &[
                    "5 (current); 5 replaces 7, which comes behind it",
                    "7 (current)",
                    "9 (current); 9 replaces 99, which isn't there",
                    "4 (current); 4 replaces 4, itself",
                ],
            ),
            (
                &[(3, 0), (10, 3), (11, 3)],
                "keys: 3 of 64; chains: 2; made by hand, or altered",
                &["3 -> 10 (current)", "11 (current); 11 replaces 3, which 10 replaced before"],
            ),
            (
                &[(3, 0), (3, 0), (9, 3)],
                "keys: 3 of 64; chains: 2; made by hand, or altered",
                &["3 -> 9 (current)", "3 -> [9] (current); another 3 comes first, and is found; [] is in a line above too"],
            ),
            (
                &[(0, 0), (6, 0), (0, 6)],
                "keys: 3 of 64; chains: 2; made by hand, or altered",
                &["0 (current); 0 is never found", "6 -> 0 (current); 0 is never found"],
            ),
            (
                &[(1, 2), (2, 1)],
                "keys: 2 of 64; chains: 1; made by hand, or altered",
                &["1 -> 2 (current); 1 replaces 2, which comes behind it"],
            ),
            (
                &[(1, 1), (1, 1), (1, 1)],
                "keys: 3 of 64; chains: 1; made by hand, or altered",
                &["1 -> 1 -> 1 (current); 1 replaces 1, itself; another 1 comes first, and is found"],
            ),
            (&[(65535, 0)], "keys: 1 of 64; chains: 1", &["65535 (current)"]),
            (
                &[(0, 9)],
                "keys: 1 of 64; chains: 1; made by hand, or altered",
                &["0 (current); 0 replaces 9, which isn't there; 0 is never found"],
            ),
            (
                &[(8, 0), (2, 8), (8, 2), (7, 8)],
                "keys: 4 of 64; chains: 1; made by hand, or altered",
                &["8 -> 2 -> 8 -> 7 (current); another 8 comes first, and is found"],
            ),
        ];
        for (numbers, top, wanted) in cases {
            let text = listing(&by_hand(numbers.len() as u64, numbers));
            let lines: Vec<&str> = text.lines().collect();
            assert_eq!(lines[0], top);
            assert_eq!(lines[1..].iter().map(|line| line.trim_start()).collect::<Vec<_>>(), wanted);
        }
    }

    // Any bytes: each entry stands in the lines once without brackets, and nothing is told of a register that adding made.
    #[test]
    fn every_entry_once() {
        let mut state = 1_u64;
        let mut draw = |end: u64| {
            state = state.wrapping_mul(6364136223846793005).wrapping_add(1442695040888963407);
            (state >> 33) % end
        };
        for round in 0..500 {
            let range = 2 + draw(80);
            let numbers: Vec<(u16, u16)> = (0..64).map(|_| (draw(range) as u16, draw(range) as u16)).collect();
            let count = [draw(65), 65 + draw(9), u64::MAX][round % 3];
            let text = listing(&by_hand(count, &numbers));
            let entries = &numbers[..count.min(64) as usize];
            let lines = text.lines().skip(1).map(|line| line.split(" (current)").next().unwrap().trim_start());
            let mut shown: Vec<u16> = lines.flat_map(|line| line.split(ARROW)).filter_map(|number| number.parse().ok()).collect();
            let mut wanted: Vec<u16> = entries.iter().map(|(number, _)| *number).collect();
            shown.sort_unstable();
            wanted.sort_unstable();
            assert_eq!(shown, wanted, "{text}");
            assert_eq!(text.contains(&format!("the count, {count}, is read as 64")), count > 64);

            let mut register = Register::new();
            for (number, replaces) in entries {
                let _ = register.add(*number, *replaces, &[0; WRAPPED]);
                let _ = register.add(*number, 0, &[0; WRAPPED]);
            }
            let text = listing(&register);
            assert!(!text.contains("by hand") && text.lines().skip(1).all(|line| line.ends_with(" (current)")), "{text}");
            assert_eq!(text.lines().count() - 1, register.entries().iter().filter(|entry| entry.replaces == 0).count());
        }
    }
}
