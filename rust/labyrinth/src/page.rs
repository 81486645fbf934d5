//! Page records: a page's number, day and title, which anyone can read, and its body, sealed, all under one tag. [`write`] makes a record under
//! a sealing key and a tag key, [`catalogue`] reads what stands in the open with no key, and [`open`] verifies the tag and then opens the body.
//!
//! A record is these commands, each a byte, here in hexadecimal, and what follows it: 10 and the number (4 bytes, the least first), 11 and the
//! day (4, the same), 12 and the title (32), 13 and the start block (16), then for each block of the body 15 and the sealed block (16), and
//! last 1F and the tag (16). The blocks are sealed by CBC, one after another; the tag is the CMAC of all bytes before 1F.
//!
//! ```
//! use labyrinth::page::{catalogue, length, open, write, Keys, Page};
//! use labyrinth::{Error, Key, Start, Store};
//!
//! let store = Store::fresh();
//! let sealing = Key { n: 1, l: 2, bytes: &[7; 16] }.expand(&store, 0)?;
//! let tagging = Key { n: 1, l: 2, bytes: &[8; 16] }.expand(&store, 0)?;
//! let keys = Keys { store: &store, sealing: &sealing, tagging: &tagging };
//!
//! let page = Page { number: 17, day: 20014, title: b"Of the harbour, second part     ", start: Start(&[9; 16]), body: b"Whole blocks: 16" };
//! let mut record = [0; length(1)];
//! write(&keys, &page, &mut record)?;
//!
//! let entry = catalogue(&record)?;
//! assert_eq!((entry.number, entry.day, entry.blocks, entry.title), (17, 20014, 1, page.title));
//! let mut body = vec![0; 16 * entry.blocks];
//! open(&keys, &record, &mut body)?;
//! assert_eq!(body, page.body);
//!
//! record[11] ^= 1; // the title: the catalogue can't tell, the tag can
//! assert_eq!(catalogue(&record)?.number, 17);
//! assert_eq!(open(&keys, &record, &mut body), Err(Error::RecordTag));
//! # Ok::<(), Error>(())
//! ```
use super::*;

/// Bytes of a title.
pub const TITLE: usize = 32;
/// Bytes of a block, and of a start block.
pub const BLOCK: usize = 16;
/// Blocks that a body has at most.
pub const MOST_BLOCKS: usize = 4096;

/// Bytes of a record whose body has so many blocks, at most [`MOST_BLOCKS`].
pub const fn length(blocks: usize) -> usize {
    77 + 17 * blocks
}

/// The two working keys of a record, and the store that has the sets that they name. They should be two keys, each used for nothing else.
#[derive(Clone, Copy, Debug)]
pub struct Keys<'a> {
    /// The sets of tables of both keys.
    pub store: &'a Store,
    /// The body is sealed and opened under it.
    pub sealing: &'a WorkingKey,
    /// The tag is made and verified under it.
    pub tagging: &'a WorkingKey,
}

/// What a record is written from. Any number, day and title will do.
#[derive(Clone, Copy)]
pub struct Page<'a> {
    /// The page's number.
    pub number: u32,
    /// The page's day.
    pub day: u32,
    /// The title, [`TITLE`] bytes.
    pub title: &'a [u8],
    /// The start block, [`BLOCK`] bytes: for one page only, and nobody should be able to tell it beforehand.
    pub start: Start<'a>,
    /// The body, 0 to [`MOST_BLOCKS`] whole blocks.
    pub body: &'a [u8],
}

/// What a record shows without a key.
#[derive(Clone, Copy, Debug, PartialEq, Eq)]
pub struct Catalogue<'a> {
    /// The page's number.
    pub number: u32,
    /// The page's day.
    pub day: u32,
    /// How many blocks of [`BLOCK`] bytes the body has.
    pub blocks: usize,
    /// The title, [`TITLE`] bytes of the record itself. They may be any, control characters too.
    pub title: &'a [u8],
}

/// Writes a page's record to `dst`, of as many bytes as [`length`] says. Refused with 1, 15 or 12 for the sealing key, then for the tag key, 19
/// (the title), 6, 4 (the body) or 5, the first that applies in this order.
pub fn write(keys: &Keys<'_>, page: &Page<'_>, dst: &mut [u8]) -> Result<(), Error> {
    let (store, sealing, tagging) = (&keys.store.0, &keys.sealing.0, &keys.tagging.0);
    let Page { number, day, title, start: Start(start), body } = *page;
    answer(unsafe {
        labyrinth_page_write(
            store.as_ptr(),
            store.len(),
            sealing.as_ptr(),
            sealing.len(),
            tagging.as_ptr(),
            tagging.len(),
            number,
            day,
            title.as_ptr(),
            title.len(),
            start.as_ptr(),
            start.len(),
            body.as_ptr(),
            body.len(),
            dst.as_mut_ptr(),
            dst.len(),
        )
    })
}

/// What a record shows without a key; 19 if the bytes are no record. Nothing is verified: what is shown may have been altered, and only
/// [`open`] tells. Records of one length that differ only in sealed bytes, start block or tag show the same.
pub fn catalogue(record: &[u8]) -> Result<Catalogue<'_>, Error> {
    let (mut number, mut day, mut blocks, mut title_at) = (0, 0, 0, 0);
    answer(unsafe { labyrinth_page_catalogue(record.as_ptr(), record.len(), &mut number, &mut day, &mut blocks, &mut title_at) })?;
    // both are below the record's length
    let (blocks, title_at) = (blocks as usize, title_at as usize);
    Ok(Catalogue { number, day, blocks, title: &record[title_at..title_at + TITLE] })
}

/// Verifies a record's tag, and then opens its body to `dst`, 16 bytes for each block ([`Catalogue::blocks`]). Refused with 1, 15 or 12 for the
/// sealing key, then for the tag key, 19 (no record), 20 (the tag is wrong) or 5, the first that applies in this order. With 20 the record was
/// altered, or the tag key or its set is another; of another sealing key nothing tells.
///
/// A record that [`write`] made opens to its body under the same two keys, where the stores have their sets loaded with the same tables.
pub fn open(keys: &Keys<'_>, record: &[u8], dst: &mut [u8]) -> Result<(), Error> {
    let (store, sealing, tagging) = (&keys.store.0, &keys.sealing.0, &keys.tagging.0);
    let (from, to) = ((record.as_ptr(), record.len()), (dst.as_mut_ptr(), dst.len()));
    answer(unsafe {
        labyrinth_page_open(
            store.as_ptr(),
            store.len(),
            sealing.as_ptr(),
            sealing.len(),
            tagging.as_ptr(),
            tagging.len(),
            from.0,
            from.1,
            to.0,
            to.1,
        )
    })
}

#[cfg(test)]
mod tests {
    use super::*;

    const MARK: u8 = 0xA5;
    const NAME: &[u8; TITLE] = b"A title of thirty-two bytes, all";

    // Set 1: byte v to 255 - v, the row 02 and seven 00. Set 2: the same, the row 03 and seven 00.
    fn store() -> Store {
        let mut store = Store::fresh();
        for set in [1, 2] {
            store.load(1, set, &(0..=255).rev().collect::<Vec<u8>>(), &[set as u8 + 1, 0, 0, 0, 0, 0, 0, 0]).unwrap();
        }
        store
    }

    fn working(store: &Store, l: usize, first: u8, set: u64) -> WorkingKey {
        let bytes: Vec<u8> = (0..8 * l as u8).map(|i| first.wrapping_add(i)).collect();
        Key { n: 1, l, bytes: &bytes }.expand(store, set).unwrap()
    }

    fn some_body(blocks: usize) -> Vec<u8> {
        (0..BLOCK * blocks).map(|i| (i * i % 251) as u8).collect()
    }

    // The record by the crate's CBC and CMAC, command by command.
    fn laid_out(keys: &Keys<'_>, page: &Page<'_>) -> Vec<u8> {
        let mut sealed = vec![0; page.body.len()];
        keys.sealing.cbc_seal(keys.store, page.start, page.body, &mut sealed).unwrap();
        let mut record = vec![0x10];
        record.extend(page.number.to_le_bytes());
        record.push(0x11);
        record.extend(page.day.to_le_bytes());
        record.push(0x12);
        record.extend(page.title);
        record.push(0x13);
        record.extend(page.start.0);
        for block in sealed.chunks(BLOCK) {
            record.push(0x15);
            record.extend(block);
        }
        let mut tag = [0; 16];
        keys.tagging.cmac(keys.store, &record, &mut tag).unwrap();
        record.push(0x1F);
        record.extend(tag);
        record
    }

    // Every size of key and pair of sets, from no block to the most, with another store that has the sets alike.
    #[test]
    fn records_come_back() {
        let (writing, mut opening) = (store(), store());
        opening.load(0, 3, &(0..=255).collect::<Vec<u8>>(), &[1, 0, 0, 0, 0, 0, 0, 0]).unwrap();
        opening.take(0, 3).unwrap();
        for (l, sets) in [2, 3, 4].into_iter().flat_map(|l| [(l, [0, 0]), (l, [0, 1]), (l, [2, 0]), (l, [1, 2]), (l, [2, 2])]) {
            let (sealing, tagging) = (working(&writing, l, 3, sets[0]), working(&writing, 6 - l, 90, sets[1]));
            let keys = Keys { store: &writing, sealing: &sealing, tagging: &tagging };
            for blocks in [0, 1, 2, 3, 4, 5, 63, 64, 65, 127, 128, 511, 512, 513, 1024, 4095, MOST_BLOCKS] {
                let (number, day) = (0x80000001 + blocks as u32, u32::MAX - blocks as u32);
                let (body, start) = (some_body(blocks), [0xF0 ^ blocks as u8; BLOCK]);
                let page = Page { number, day, title: NAME, start: Start(&start), body: &body };
                let mut record = vec![MARK; length(blocks)];
                write(&keys, &page, &mut record).unwrap();
                assert!(record == laid_out(&keys, &page), "l = {l}, sets {sets:?}, {blocks} blocks");
                let entry = catalogue(&record).unwrap();
                assert_eq!(entry, Catalogue { number, day, blocks, title: NAME });
                assert_eq!(entry.title.as_ptr(), record[11..].as_ptr(), "the title is a copy");
                let mut opened = vec![MARK; body.len()];
                open(&Keys { store: &opening, ..keys }, &record, &mut opened).unwrap();
                assert!(opened == body, "l = {l}, sets {sets:?}, {blocks} blocks");
            }
        }
    }

    // Keys, body, title and start block zero, l = 2, number 1, day 2; sealed by set 0, tagged by set 1. The values are from a program that was
    // written from the papers alone.
    #[test]
    fn examples() {
        let store = store();
        let zeros = Key { n: 1, l: 2, bytes: &[0; 16] };
        let (sealing, tagging) = (zeros.expand(&store, 0).unwrap(), zeros.expand(&store, 1).unwrap());
        let keys = Keys { store: &store, sealing: &sealing, tagging: &tagging };
        let sealed = 0xF5DC29DB0AC8BBADA00A5233A5A41C32_u128.to_be_bytes();
        for (body, rest) in [
            (&[][..], [&[0x1F][..], &0xB09C41D56DBE85E7D2BE0B8C8B477094_u128.to_be_bytes()].concat()),
            (&[0; 16], [&[0x15][..], &sealed, &[0x1F], &0x11C595C92B345A334782D82CADB70347_u128.to_be_bytes()].concat()),
        ] {
            let page = Page { number: 1, day: 2, title: &[0; TITLE], start: Start(&[0; BLOCK]), body };
            let mut record = vec![MARK; length(body.len() / BLOCK)];
            write(&keys, &page, &mut record).unwrap();
            assert_eq!(record[..11], [0x10, 1, 0, 0, 0, 0x11, 2, 0, 0, 0, 0x12]);
            assert_eq!(record[60..], rest);
        }
    }

    // Every bit of a record; cut, longer, another key, other tables: nothing is opened. What is hidden the catalogue doesn't look at.
    #[test]
    fn altered_records() {
        let store = store();
        let (sealing, tagging, other) = (working(&store, 2, 1, 1), working(&store, 2, 2, 2), working(&store, 2, 3, 2));
        let keys = Keys { store: &store, sealing: &sealing, tagging: &tagging };
        for blocks in [0, 1, 3] {
            let page = Page { number: 5, day: 6, title: NAME, start: Start(&[7; BLOCK]), body: &some_body(blocks) };
            let mut record = vec![MARK; length(blocks)];
            write(&keys, &page, &mut record).unwrap();
            let mut dst = vec![MARK; page.body.len()];
            let mut refused = |keys: &Keys<'_>, record: &[u8], error| {
                assert_eq!(open(keys, record, &mut dst), Err(error));
                assert!(dst.iter().all(|&b| b == MARK), "written with {error:?}");
            };
            let entry = catalogue(&record).unwrap();
            for bit in 0..8 * record.len() {
                let mut altered = record.clone();
                altered[bit / 8] ^= 1 << (bit % 8);
                match bit / 8 {
                    0 | 5 | 10 | 43 => assert_eq!(catalogue(&altered), Err(Error::RecordLayout)),
                    at if at >= 60 && (at - 60) % 17 == 0 => assert_eq!(catalogue(&altered), Err(Error::RecordLayout)),
                    1..=42 => assert_ne!(catalogue(&altered), Ok(entry)),
                    _ => assert_eq!(catalogue(&altered), Ok(entry)),
                }
                refused(&keys, &altered, if catalogue(&altered).is_ok() { Error::RecordTag } else { Error::RecordLayout });
            }
            for count in 0..record.len() {
                assert_eq!(catalogue(&record[..count]), Err(Error::RecordLayout), "cut to {count} bytes");
                refused(&keys, &record[..count], Error::RecordLayout);
            }
            for count in 1..40 {
                let longer = [&record[..], &vec![0x15; count]].concat();
                assert_eq!(catalogue(&longer), Err(Error::RecordLayout), "longer by {count} bytes");
                refused(&keys, &longer, Error::RecordLayout);
            }
            refused(&Keys { tagging: &other, ..keys }, &record, Error::RecordTag);
            refused(&Keys { tagging: &sealing, sealing: &tagging, store: &store }, &record, Error::RecordTag);
            let mut anew = store.clone();
            anew.load(0, 2, &(0..=255).rev().collect::<Vec<u8>>(), &[9, 0, 0, 0, 0, 0, 0, 0]).unwrap();
            refused(&Keys { store: &anew, ..keys }, &record, Error::RecordTag);
            // of another sealing key nothing tells
            open(&Keys { sealing: &other, ..keys }, &record, &mut dst).unwrap();
            assert!(blocks == 0 || dst != page.body);
        }
    }

    // A record of 4,097 blocks is none.
    #[test]
    fn one_block_too_many() {
        for (blocks, right) in [(MOST_BLOCKS, true), (MOST_BLOCKS + 1, false)] {
            let mut record = vec![0x15; length(blocks)];
            for (at, command) in [(0, 0x10), (5, 0x11), (10, 0x12), (43, 0x13), (60 + 17 * blocks, 0x1F)] {
                record[at] = command;
            }
            assert_eq!(catalogue(&record).map(|entry| entry.blocks), if right { Ok(blocks) } else { Err(Error::RecordLayout) });
        }
    }

    // Each fault is mended in the order of the checks, so each number shows that it comes before all later ones.
    #[test]
    fn numbers_of_pages_in_order() {
        let store = store();
        let with = |n: u64, set: u64| {
            let mut bytes = [7; WorkingKey::LENGTH];
            bytes[..8].copy_from_slice(&n.to_le_bytes());
            bytes[8..16].copy_from_slice(&set.to_le_bytes());
            WorkingKey::from_bytes(bytes)
        };
        let number = |answer: Result<(), Error>, dst: &[u8]| {
            assert!(answer.is_ok() || dst.iter().all(|&b| b == MARK), "written with {answer:?}");
            answer.map_or_else(Error::number, |()| 0)
        };
        let written = |sealing: &WorkingKey, tagging: &WorkingKey, [title, start, body, dst]: [usize; 4]| {
            let (title, start, body, mut dst) = (vec![1; title], vec![2; start], vec![3; body], vec![MARK; dst]);
            let page = Page { number: 8, day: 9, title: &title, start: Start(&start), body: &body };
            number(write(&Keys { store: &store, sealing, tagging }, &page, &mut dst), &dst)
        };
        let good = [with(1, 0), with(1, 1)];
        let mut record = vec![0; length(2)];
        let page = Page { number: 8, day: 9, title: NAME, start: Start(&[1; 16]), body: &[2; 32] };
        write(&Keys { store: &store, sealing: &good[0], tagging: &good[1] }, &page, &mut record).unwrap();
        let flipped: Vec<u8> = record.iter().enumerate().map(|(i, b)| b ^ u8::from(i == 70)).collect();
        let opened = |sealing: &WorkingKey, tagging: &WorkingKey, record: &[u8], dst: usize| {
            let mut dst = vec![MARK; dst];
            number(open(&Keys { store: &store, sealing, tagging }, record, &mut dst), &dst)
        };
        // a wrong key and its number; by the sealing key first, whatever the tag key has
        let wrong = [
            (with(3, 9), 1),
            (with(0, 0), 1),
            (with(1 << 32 | 1, 0), 1),
            (with(2, 3), 15),
            (with(1, 4), 15),
            (with(4, 1), 12),
            (with(2, 0), 12),
        ];
        for (key, wanted) in &wrong {
            for (other, _) in &wrong {
                assert_eq!(written(key, other, [31, 15, 15, 0]), *wanted);
                assert_eq!(opened(key, other, &record[1..], 31), *wanted);
            }
            assert_eq!(written(key, &good[1], [32, 16, 32, length(2)]), *wanted);
            assert_eq!(written(&good[0], key, [31, 15, 15, 0]), *wanted);
            assert_eq!(written(&good[0], key, [32, 16, 32, length(2)]), *wanted);
            assert_eq!(opened(key, &good[1], &record, 32), *wanted);
            assert_eq!(opened(&good[0], key, &record[1..], 31), *wanted);
            assert_eq!(opened(&good[0], key, &record, 32), *wanted);
        }
        let [sealing, tagging] = &good;
        for title in [0, 1, 31, 33, 64] {
            assert_eq!(written(sealing, tagging, [title, 15, 15, 0]), 19);
        }
        for start in [0, 15, 17, 32] {
            assert_eq!(written(sealing, tagging, [32, start, 15, 0]), 6);
        }
        for body in [1, 15, 17, BLOCK * MOST_BLOCKS + 1, BLOCK * (MOST_BLOCKS + 1)] {
            assert_eq!(written(sealing, tagging, [32, 16, body, 77 + body / 16 * 17 + 1]), 4);
            assert_eq!(written(sealing, tagging, [32, 16, body, 77 + body / 16 * 17]), 4);
        }
        for blocks in [0, 1, 2, MOST_BLOCKS] {
            for dst in [0, length(blocks) - 1, length(blocks) + 1, length(blocks + 1)] {
                assert_eq!(written(sealing, tagging, [32, 16, 16 * blocks, dst]), 5);
            }
            assert_eq!(written(sealing, tagging, [32, 16, 16 * blocks, length(blocks)]), 0);
        }
        for dst in [0, 16, 31, 33, 48] {
            assert_eq!(opened(sealing, tagging, &flipped[1..], dst), 19);
            assert_eq!(opened(sealing, tagging, &flipped, dst), 20);
            assert_eq!(opened(sealing, tagging, &record, dst), 5);
        }
        assert_eq!((opened(sealing, tagging, &flipped, 32), opened(sealing, tagging, &record, 32)), (20, 0));
    }
}
