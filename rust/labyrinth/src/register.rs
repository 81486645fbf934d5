//! A register of page keys, and which key replaced which: up to 64 entries, each a key's number, the number that it replaces (0 for none) and the
//! key, wrapped. Entries are never removed. [`Register::find`] takes the first entry with a number, then each time the first later entry that
//! replaces the one reached, and gives the one at the end. The wrapped keys are kept as they are and never unwrapped or judged.
//!
//! **A page opens with the key that it was sealed under**, though another replaced it: [`Register::own`] gives the entry with the number itself,
//! for pages sealed under it, [`Register::find`] the one to seal new pages with.
//!
//! **A register has no tag**: whoever can alter it can have a number lead to another key, and nothing here tells. Keep it where others can't
//! write, or tag its bytes ([`TagKey`]) and verify them before use.
//!
//! ```
//! use labyrinth::register::{Register, Rule};
//! use labyrinth::{Error, Key, Store};
//!
//! let store = Store::fresh();
//! let master = Key { n: 1, l: 4, bytes: &[7; 32] }.expand(&store, 0)?;
//! let wrapped = |key: &[u8; 32]| {
//!     let mut wrapped = [0; 40];
//!     master.wrap(&store, key, &mut wrapped).map(|()| wrapped)
//! };
//! let mut register = Register::new();
//! register.add(17, 0, &wrapped(&[1; 32])?)?;
//! register.add(23, 17, &wrapped(&[2; 32])?)?;
//!
//! let found = register.find(17)?;
//! assert_eq!((found.entry.number, found.rule, found.followed), (23, Rule::Replaced, 1));
//! let mut key = [0; 32];
//! master.unwrap(&store, &found.entry.wrapped, &mut key)?;
//! assert_eq!(key, [2; 32]);
//!
//! master.unwrap(&store, &register.own(17)?.wrapped, &mut key)?; // for a page sealed under key 17
//! assert_eq!(key, [1; 32]);
//!
//! assert_eq!(register.find(23)?.rule, Rule::Current);
//! assert_eq!(register.add(40, 17, &[0; 40]), Err(Error::NotInRegister)); // 23 replaces it already
//! # Ok::<(), Error>(())
//! ```
use super::*;

/// Bytes of a wrapped key: what [`WorkingKey::wrap`] makes of a key of 32.
pub const WRAPPED: usize = 40;
/// Entries that a register has at most.
pub const MOST_ENTRIES: usize = 64;
const ENTRY: usize = 4 + WRAPPED;
const FIRST_ENTRY: usize = 8;

/// A key of a register.
#[derive(Clone, Copy, Debug, PartialEq, Eq)]
pub struct Entry {
    /// The key's number; not 0 but in a register made by hand.
    pub number: u16,
    /// The number that it replaces, 0 for none.
    pub replaces: u16,
    /// The key, wrapped.
    pub wrapped: [u8; WRAPPED],
}

impl Entry {
    fn read(bytes: &[u8]) -> Entry {
        let mut wrapped = [0; WRAPPED];
        wrapped.copy_from_slice(&bytes[4..ENTRY]);
        Entry { number: u16::from_le_bytes([bytes[0], bytes[1]]), replaces: u16::from_le_bytes([bytes[2], bytes[3]]), wrapped }
    }
}

/// The rule that decided: it is the asked number's, not the found entry's.
#[derive(Clone, Copy, Debug, PartialEq, Eq, Hash)]
pub enum Rule {
    /// 0, 'still current': no entry replaces the number's, and it is the one found.
    Current,
    /// 1, 'replaced': the one found is at the end of its replacements.
    Replaced,
}

/// What [`Register::find`] gives.
#[derive(Clone, Copy, Debug, PartialEq, Eq)]
pub struct Found {
    /// The entry at the end of the number's replacements.
    pub entry: Entry,
    /// Whether the number's own entry is the one.
    pub rule: Rule,
    /// How many replacements were followed, at most 63.
    pub followed: usize,
}

/// A register of page keys; the module says of what. It is the bytes of its layout: from byte 0 the count (8 bytes, the least first); from byte
/// 8 + 44i entry i, for each i from 0 to 63: number (2, the least first), replaced number (2), wrapped key (40).
#[derive(Clone, PartialEq, Eq)]
pub struct Register([u8; Register::LENGTH]);

/// Shows the count, not the entries.
impl fmt::Debug for Register {
    fn fmt(&self, f: &mut fmt::Formatter<'_>) -> fmt::Result {
        write!(f, "Register {{ count: {}, entries not shown }}", self.count())
    }
}

impl Default for Register {
    fn default() -> Register {
        Register::new()
    }
}

impl Register {
    /// Bytes of a register.
    pub const LENGTH: usize = FIRST_ENTRY + MOST_ENTRIES * ENTRY;

    /// An empty register: all zeros.
    pub fn new() -> Register {
        Register([0; Register::LENGTH])
    }

    /// Puts a key behind the others. Refused with 21 (the number is 0 or present), 22 (`replaces` isn't 0, and is absent or replaced already) or
    /// 23 (there are 64), the first that applies in this order.
    pub fn add(&mut self, number: u16, replaces: u16, wrapped: &[u8; WRAPPED]) -> Result<(), Error> {
        let (register, key) = (&mut self.0, (wrapped.as_ptr(), wrapped.len()));
        answer(unsafe { labyrinth_register_add(register.as_mut_ptr(), register.len(), number, replaces, key.0, key.1) })
    }

    /// The entry at the end of a number's replacements: the key to seal new pages with. Refused with 22 if the number is absent; 0 always is.
    pub fn find(&self, number: u16) -> Result<Found, Error> {
        let (mut entry, mut rule, mut followed) = ([0; ENTRY], 0, 0);
        let to = (entry.as_mut_ptr(), entry.len());
        answer(unsafe { labyrinth_register_find(self.0.as_ptr(), self.0.len(), number, to.0, to.1, &mut rule, &mut followed) })?;
        let rule = if rule == 1 { Rule::Replaced } else { Rule::Current };
        Ok(Found { entry: Entry::read(&entry), rule, followed: followed as usize })
    }

    /// The first entry with a number itself, replaced or not: its key opens the pages that were sealed under it. Refused with 22 if the number is
    /// absent; 0 always is. This is ours, plain Rust over [`Register::entries`], and no call of the proved library.
    pub fn own(&self, number: u16) -> Result<Entry, Error> {
        self.entries().into_iter().find(|entry| number != 0 && entry.number == number).ok_or(Error::NotInRegister)
    }

    /// The count as it is written; above [`MOST_ENTRIES`], in a register made by hand, it is read as that.
    pub fn count(&self) -> u64 {
        number_at(&self.0, 0)
    }

    /// The entries, in the order of their adding. This, [`Register::own`] and [`Register::chain`] are plain Rust, with nothing proved.
    pub fn entries(&self) -> Vec<Entry> {
        let count = self.count().min(MOST_ENTRIES as u64) as usize;
        self.0[FIRST_ENTRY..].chunks(ENTRY).take(count).map(Entry::read).collect()
    }

    /// The places in [`Register::entries`], from 0 on, that an entry's replacements lead through: its own, then each time that of the first later
    /// entry that replaces the one reached. [`Register::find`] goes this way from the first entry with the number. Empty if there is no entry
    /// at this place.
    pub fn chain(&self, place: usize) -> Vec<usize> {
        let entries = self.entries();
        let later = |from: usize, number: u16| (from..entries.len()).find(|&at| number != 0 && entries[at].replaces == number);
        let mut reached: Vec<usize> = (place < entries.len()).then_some(place).into_iter().collect();
        while let Some(next) = reached.last().and_then(|&at| later(at + 1, entries[at].number)) {
            reached.push(next);
        }
        reached
    }

    /// A register from its bytes, whatever they are.
    pub fn from_bytes(bytes: [u8; Register::LENGTH]) -> Register {
        Register(bytes)
    }

    /// Its bytes.
    pub fn as_bytes(&self) -> &[u8; Register::LENGTH] {
        &self.0
    }
}

#[cfg(test)]
mod tests {
    use super::*;

    // Numbers that look drawn by chance, the same in every run (splitmix64).
    struct Draw(u64);

    impl Draw {
        fn below(&mut self, end: u64) -> u64 {
            self.0 = self.0.wrapping_add(0x9E3779B97F4A7C15);
            let mut z = self.0;
            z = (z ^ (z >> 30)).wrapping_mul(0xBF58476D1CE4E5B9);
            z = (z ^ (z >> 27)).wrapping_mul(0x94D049BB133111EB);
            (z ^ (z >> 31)) % end
        }

        fn wrapped(&mut self) -> [u8; WRAPPED] {
            [0; WRAPPED].map(|_| self.below(256) as u8)
        }
    }

    fn some_key(mark: u8) -> [u8; WRAPPED] {
        let mut bytes = [mark; WRAPPED];
        bytes[39] = !mark;
        bytes
    }

    // By the layout, from its words: a count, and entries as far as they go; what is behind them is a mark.
    fn by_hand(count: u64, entries: &[(u16, u16, [u8; WRAPPED])]) -> Register {
        let mut bytes = [0xA5; Register::LENGTH];
        for (i, byte) in bytes[..8].iter_mut().enumerate() {
            *byte = (count >> (8 * i)) as u8;
        }
        for (i, (number, replaces, wrapped)) in entries.iter().enumerate() {
            let at = 8 + 44 * i;
            bytes[at..at + 4].copy_from_slice(&[*number as u8, (number >> 8) as u8, *replaces as u8, (replaces >> 8) as u8]);
            bytes[at + 4..at + 44].copy_from_slice(wrapped);
        }
        Register::from_bytes(bytes)
    }

    fn pairs(count: u64, numbers: &[(u16, u16)]) -> Register {
        let entries: Vec<_> = numbers.iter().enumerate().map(|(i, (number, replaces))| (*number, *replaces, some_key(i as u8))).collect();
        by_hand(count, &entries)
    }

    // The request in plain words, over a list of entries: what adding answers, and what a lookup gives, going through the entries once.
    fn added(held: &[Entry], number: u16, replaces: u16) -> Result<(), Error> {
        if number == 0 || held.iter().any(|e| e.number == number) {
            return Err(Error::KeyNumber);
        }
        if replaces != 0 && (held.iter().all(|e| e.number != replaces) || held.iter().any(|e| e.replaces == replaces)) {
            return Err(Error::NotInRegister);
        }
        if held.len() >= 64 {
            return Err(Error::RegisterFull);
        }
        Ok(())
    }

    fn looked_up(held: &[Entry], number: u16) -> Result<Found, Error> {
        let mut found: Option<Found> = None;
        for entry in held {
            match &mut found {
                None if number != 0 && entry.number == number => found = Some(Found { entry: *entry, rule: Rule::Current, followed: 0 }),
                Some(now) if now.entry.number != 0 && now.entry.number == entry.replaces => {
                    *now = Found { entry: *entry, rule: Rule::Replaced, followed: now.followed + 1 }
                }
                _ => (),
            }
        }
        found.ok_or(Error::NotInRegister)
    }

    // Every lookup that the numbers at hand give is the model's, and the chain's end; a number's own entry is the chain's start.
    fn agrees(register: &Register, held: &[Entry], numbers: impl IntoIterator<Item = u16>) -> usize {
        assert_eq!(register.entries(), held);
        let mut tried = 0;
        for number in numbers {
            let found = register.find(number);
            assert_eq!(found, looked_up(held, number), "number {number} of {held:?}");
            let start = held.iter().position(|e| number != 0 && e.number == number);
            assert_eq!(register.own(number), start.map(|start| held[start]).ok_or(Error::NotInRegister), "number {number} of {held:?}");
            match (found, start.map(|start| register.chain(start))) {
                (Ok(found), Some(chain)) => {
                    assert_eq!((held[chain[chain.len() - 1]], chain.len() - 1), (found.entry, found.followed));
                    assert!(chain.windows(2).all(|two| two[0] < two[1]), "{chain:?}");
                }
                (found, chain) => assert_eq!((found, chain), (Err(Error::NotInRegister), None)),
            }
            tried += 1;
        }
        tried
    }

    fn refused(register: &Register, number: u16, replaces: u16, error: Error) {
        let mut after = register.clone();
        assert_eq!(after.add(number, replaces, &some_key(9)), Err(error), "{number} for {replaces}");
        assert!(after == *register, "altered by a refused call ({error:?})");
    }

    #[test]
    fn the_layout() {
        let mut register = Register::new();
        assert!(register == Register::default() && *register.as_bytes() == [0; 2824]);
        assert_eq!((register.count(), register.entries(), register.chain(0)), (0, vec![], vec![]));
        register.add(0x1234, 0, &some_key(1)).unwrap();
        register.add(0xFFFF, 0x1234, &some_key(2)).unwrap();
        let mut bytes = [0; Register::LENGTH];
        bytes[0] = 2;
        bytes[8..12].copy_from_slice(&[0x34, 0x12, 0, 0]);
        bytes[12..52].copy_from_slice(&some_key(1));
        bytes[52..56].copy_from_slice(&[0xFF, 0xFF, 0x34, 0x12]);
        bytes[56..96].copy_from_slice(&some_key(2));
        assert!(*register.as_bytes() == bytes && register == Register::from_bytes(bytes));
        let last = Entry { number: 0xFFFF, replaces: 0x1234, wrapped: some_key(2) };
        assert_eq!(register.entries(), [Entry { number: 0x1234, replaces: 0, wrapped: some_key(1) }, last]);
        assert_eq!(register.find(0x1234), Ok(Found { entry: last, rule: Rule::Replaced, followed: 1 }));
        assert_eq!(register.find(0xFFFF), Ok(Found { entry: last, rule: Rule::Current, followed: 0 }));
        assert_eq!((register.chain(0), register.chain(1), register.chain(2)), (vec![0, 1], vec![1], vec![]));
        assert_eq!(format!("{register:?}"), "Register { count: 2, entries not shown }");
    }

    // 21 comes before 22, and 22 before 23; 10, 11 and 12 replace 1, 2 and 3.
    #[test]
    fn numbers_of_registers_in_order() {
        let mut register = Register::new();
        for number in 1..=64 {
            refused(&register, 0, 99, Error::KeyNumber);
            refused(&register, 0, 0, Error::KeyNumber);
            refused(&register, number, number, Error::NotInRegister);
            refused(&register, number, 65, Error::NotInRegister);
            if number > 1 {
                refused(&register, number - 1, 0, Error::KeyNumber);
                refused(&register, number - 1, 99, Error::KeyNumber);
            }
            let replaces = if (10..=12).contains(&number) { number - 9 } else { 0 };
            register.add(number, replaces, &some_key(number as u8)).unwrap();
            if replaces != 0 {
                refused(&register, number + 1, replaces, Error::NotInRegister);
                refused(&register, number, replaces, Error::KeyNumber);
            }
        }
        assert_eq!(register.count(), 64);
        for (number, replaces, error) in [
            (0, 1, Error::KeyNumber),
            (64, 1, Error::KeyNumber),
            (65, 1, Error::NotInRegister),
            (65, 65, Error::NotInRegister),
            (65, 99, Error::NotInRegister),
            (65, 0, Error::RegisterFull),
            (65, 4, Error::RegisterFull),
        ] {
            refused(&register, number, replaces, error);
        }
        assert_eq!(agrees(&register, &register.entries(), 0..=99), 100);
    }

    // A count above 64 is read as 64, and stays as it is written; entries behind the count aren't seen.
    #[test]
    fn counts_made_by_hand() {
        let numbers: Vec<(u16, u16)> = (1..=64).map(|i| (i, if i == 64 { 1 } else { 0 })).collect();
        for count in [64, 65, 128, 256, 1 << 16 | 3, 1 << 32, 1 << 63, u64::MAX] {
            let register = pairs(count, &numbers);
            assert_eq!((register.count(), register.entries().len()), (count, 64));
            let found = register.find(1).unwrap();
            assert_eq!((found.entry.number, found.rule, found.followed), (64, Rule::Replaced, 1));
            agrees(&register, &register.entries(), 0..=70);
            refused(&register, 64, 9, Error::KeyNumber);
            refused(&register, 65, 1, Error::NotInRegister);
            refused(&register, 65, 2, Error::RegisterFull);
        }
        for count in 0..64 {
            let mut register = pairs(count, &numbers);
            assert_eq!(register.entries().len(), count as usize);
            assert_eq!(agrees(&register, &register.entries(), 0..=70), 71);
            // the one that was not seen gives way
            let kept = *register.as_bytes();
            register.add(count as u16 + 1, 0, &some_key(200)).unwrap();
            let at = 8 + 44 * count as usize;
            assert_eq!(register.count(), count + 1);
            assert!(register.as_bytes()[8..at] == kept[8..at] && register.as_bytes()[at + 44..] == kept[at + 44..]);
            assert_eq!(register.entries()[count as usize], Entry { number: count as u16 + 1, replaces: 0, wrapped: some_key(200) });
        }
    }

    #[test]
    fn entries_made_by_hand() {
        // the entries, and for some numbers what a lookup gives: the place, and how many were followed
        type Case = (&'static [(u16, u16)], &'static [(u16, Option<(usize, usize)>)]);
        let cases: [Case; 9] = [
            // the entry that names 7 stands before it
            (&[(5, 7), (7, 0)], &[(5, Some((0, 0))), (7, Some((1, 0)))]),
            // rings of two, of three and of one
            (&[(1, 2), (2, 1)], &[(1, Some((1, 1))), (2, Some((1, 0)))]),
            (&[(1, 3), (2, 1), (3, 2)], &[(1, Some((2, 2))), (2, Some((2, 1))), (3, Some((2, 0)))]),
            (&[(4, 4)], &[(4, Some((0, 0)))]),
            // 0 is found by no number, is reached, and ends a chain
            (&[(0, 0), (6, 0), (0, 6), (8, 0)], &[(0, None), (6, Some((2, 1))), (8, Some((3, 0)))]),
            // doubles: the first starts; a replacement is one of the number, whichever was reached
            (&[(3, 0), (3, 0), (9, 3)], &[(3, Some((2, 1))), (9, Some((2, 0)))]),
            (&[(3, 0), (9, 3), (3, 9), (11, 3)], &[(3, Some((3, 3))), (9, Some((3, 2))), (11, Some((3, 0)))]),
            // of two that name one number the first later one is followed
            (&[(3, 0), (10, 3), (11, 3)], &[(3, Some((1, 1))), (11, Some((2, 0)))]),
            // a ring of doubles ends with the entries
            (&[(1, 1), (1, 1), (1, 1), (1, 1)], &[(1, Some((3, 3)))]),
        ];
        for (numbers, lookups) in cases {
            let register = pairs(numbers.len() as u64, numbers);
            let entries = register.entries();
            for (number, wanted) in lookups {
                let found = register.find(*number).ok().map(|found| (found.entry, found.followed));
                assert_eq!(found, wanted.map(|(at, followed)| (entries[at], followed)), "{number} of {numbers:?}");
            }
            agrees(&register, &entries, 0..=12);
        }
        // any entry that names a number keeps it from being replaced, also one that stands before it
        refused(&pairs(2, &[(5, 7), (7, 0)]), 8, 7, Error::NotInRegister);
        refused(&pairs(1, &[(0, 0)]), 0, 0, Error::KeyNumber);
    }

    // By the library: a number's own entry is the one found while none is behind it, and before it the number is absent. For a current key it is the
    // one found in the whole register too.
    #[test]
    fn own_entries() {
        let register = pairs(6, &[(17, 0), (0, 0), (23, 17), (17, 23), (40, 17), (9, 9)]);
        let entries = register.entries();
        for (number, at) in [(17, 0), (23, 2), (40, 4), (9, 5)] {
            assert_eq!(register.own(number), Ok(entries[at]));
        }
        assert_eq!([0, 1, 65535].map(|number| register.own(number)), [Err(Error::NotInRegister); 3]);
        let mut draw = Draw(17);
        let (mut current, mut replaced, mut absent) = (0, 0, 0);
        for _ in 0..200 {
            let range = 3 + draw.below(70);
            let entries = [0; 64].map(|_| (draw.below(range) as u16, draw.below(range) as u16, draw.wrapped()));
            let count = draw.below(70);
            let register = by_hand(count, &entries);
            for number in 0..=range as u16 {
                let shortest = (0..=count).find_map(|count| by_hand(count, &entries).find(number).ok());
                let own = register.own(number);
                assert_eq!(own, shortest.map(|found| found.entry).ok_or(Error::NotInRegister), "number {number} of {count}: {entries:?}");
                assert!(shortest.is_none_or(|found| found.rule == Rule::Current));
                match register.find(number) {
                    Ok(Found { entry, rule: Rule::Current, .. }) => {
                        assert_eq!(own, Ok(entry));
                        current += 1;
                    }
                    Ok(found) => {
                        assert_ne!(own, Ok(found.entry));
                        replaced += 1;
                    }
                    Err(error) => {
                        assert_eq!(own, Err(error));
                        absent += 1;
                    }
                }
            }
        }
        assert_eq!((current, replaced, absent), (1903, 1509, 4385));
    }

    // A chain of all 64, from every one of its keys; and 32 of two.
    #[test]
    fn long_chains() {
        let mut one = Register::new();
        for i in 0..64 {
            one.add(1000 + i, if i == 0 { 0 } else { 999 + i }, &some_key(i as u8)).unwrap();
        }
        for i in 0..64_usize {
            let found = one.find(1000 + i as u16).unwrap();
            let rule = if i == 63 { Rule::Current } else { Rule::Replaced };
            assert_eq!(found, Found { entry: one.entries()[63], rule, followed: 63 - i });
            assert_eq!(one.chain(i), (i..64).collect::<Vec<_>>());
        }
        refused(&one, 9, 1063, Error::RegisterFull);
        refused(&one, 9, 1062, Error::NotInRegister);
        let mut two = Register::new();
        for i in 1..=64 {
            two.add(i, if i > 32 { 65 - i } else { 0 }, &some_key(i as u8)).unwrap();
        }
        for i in 1..=32_u16 {
            let found = two.find(i).unwrap();
            assert_eq!((found.entry.number, found.rule, found.followed), (65 - i, Rule::Replaced, 1));
        }
    }

    // Calls by chance from an empty register: each answers what the model does, a refused one leaves the bytes, and chains from the entries that
    // replace none go through every entry once.
    #[test]
    fn calls_by_chance() {
        let mut draw = Draw(10);
        let (mut taken, mut refusals, mut lookups) = (0, [0; 3], 0);
        for round in 0..60 {
            let mut register = Register::new();
            let mut held: Vec<Entry> = Vec::new();
            // few numbers in some rounds, so that many are present; all of them in others
            let range = [12, 90, 1 << 16][round % 3];
            for _ in 0..200 {
                let number = draw.below(range) as u16;
                let old = match draw.below(4) {
                    0 => 0,
                    1 => draw.below(range) as u16,
                    _ if held.is_empty() => 0,
                    _ => held[draw.below(held.len() as u64) as usize].number,
                };
                let (wrapped, before) = (draw.wrapped(), register.clone());
                let answer = register.add(number, old, &wrapped);
                assert_eq!(answer, added(&held, number, old), "{number} for {old}");
                match answer {
                    Ok(()) => {
                        held.push(Entry { number, replaces: old, wrapped });
                        taken += 1;
                    }
                    Err(error) => {
                        assert!(register == before, "altered by a refused call");
                        refusals[usize::from(error.number()) - 21] += 1;
                    }
                }
                lookups += agrees(&register, &held, [number, old, 0]);
            }
            let heads = (0..held.len()).filter(|&at| held[at].replaces == 0);
            let mut all: Vec<usize> = heads.flat_map(|at| register.chain(at)).collect();
            all.sort_unstable();
            assert_eq!(all, (0..held.len()).collect::<Vec<_>>());
        }
        assert_eq!((taken, refusals, lookups), (2736, [5367, 3160, 737], 36000));
    }

    // Registers by chance, with few numbers, so that rings, doubles and zeros come about, and any count: every lookup, and one call.
    #[test]
    fn registers_by_chance() {
        let mut draw = Draw(64);
        let (mut lookups, mut followed, mut full) = (0, 0, 0);
        for round in 0..1500 {
            let range = 3 + draw.below(70);
            let entries = [0; 64].map(|_| (draw.below(range) as u16, draw.below(range) as u16, draw.wrapped()));
            let count = if round % 3 == 0 { 60 + draw.below(10) } else { draw.below(64) };
            let mut register = by_hand(count, &entries);
            let held = register.entries();
            assert!(held.iter().zip(&entries).all(|(e, given)| (e.number, e.replaces, e.wrapped) == *given));
            lookups += agrees(&register, &held, 0..=range as u16);
            followed += (0..=range as u16).filter_map(|number| register.find(number).ok()).map(|found| found.followed).sum::<usize>();
            for _ in 0..10 {
                let (number, old) = (draw.below(range + 4) as u16, draw.below(range + 2) as u16 * draw.below(2) as u16);
                let (before, held) = (register.clone(), register.entries());
                let answer = register.add(number, old, &some_key(7));
                assert_eq!(answer, added(&held, number, old));
                assert!(answer.is_ok() || register == before, "altered by a refused call");
                full += usize::from(answer == Err(Error::RegisterFull));
                if answer.is_ok() {
                    let entry = Entry { number, replaces: old, wrapped: some_key(7) };
                    assert_eq!(register.entries(), [&held[..], &[entry]].concat());
                }
            }
        }
        assert_eq!((lookups, followed, full), (58949, 26570, 564));
    }
}
