//! The block cipher Labyrinth, and over it CBC and CTR of NIST SP 800-38A, the tag of SP 800-38B (CMAC) and the wrapping of keys of SP 800-38F
//! (KW): a safe wrapper of the library in Rattle that is proved against the article and these standards. Each operation of a [`Key`] or a
//! [`TagKey`] expands it, does one thing and keeps nothing. A [`WorkingKey`] is expanded once and used for many pages, or to wrap keys; it names
//! a set of tables in a [`Store`], the published set or one of an archive's own. [`page`] has records of pages: a title in the open, a sealed
//! body, one tag; [`register`] a register of their keys, which tells by which key another was replaced. Two functions mix a word, two make a
//! row, and one judges a row.
//!
//! What is proved is the library behind the C interface; this wrapper is not. It hands over what it is given, unchecked, and returns what
//! the library answered. Safe Rust keeps to what the proofs ask of a caller: slices are valid, and a destination overlaps nothing.
//!
//! **Never use one start block with overlapping counters for two pages under one key** (CTR): the XOR of the two sealed pages is then the
//! XOR of the pages. **CBC and CTR show no alteration**: a changed sealed page, or a wrong key, opens to something, and nothing tells. So tag
//! the sealed page, under a key used for nothing else, and verify the tag before opening ([`TagKey`]). A tag covers its message only: a
//! start block, or q, kept where it could be altered belongs to the message. CBC takes whole blocks only; nothing here pads. Time depends on
//! the data and the key, and keys are not cleared from memory.
//!
//! ```
//! use labyrinth::{Error, Key, Start, TagKey};
//!
//! let key = Key { n: 1, l: 2, bytes: &[7; 16] };
//! let tag_key = TagKey { l: 2, bytes: &[8; 16] };
//! let start = Start(&[9; 16]);
//! let (mut sealed, mut tag, mut opened) = ([0; 11], [0; 16], [0; 11]);
//! key.ctr(start, 0, b"eleven long", &mut sealed)?;
//! tag_key.cmac(&sealed, &mut tag)?;
//! // kept: the sealed page and its tag
//! assert!(tag_key.cmac_verify(&sealed, &tag)?, "altered: not to be opened");
//! key.ctr(start, 0, &sealed, &mut opened)?;
//! assert_eq!(&opened, b"eleven long");
//! sealed[0] ^= 1;
//! assert!(!tag_key.cmac_verify(&sealed, &tag)?);
//! assert_eq!(key.cbc_seal(start, b"eleven long", &mut sealed), Err(Error::SourceLength));
//! # Ok::<(), Error>(())
//! ```
#![warn(missing_docs)]

pub mod page;
pub mod register;

use std::fmt;

// As include/labyrinth.h declares them; tests/rust.sh compares the two.
extern "C" {
    fn labyrinth_encipher(
        n: usize,
        l: usize,
        key: *const u8,
        key_len: usize,
        src: *const u8,
        src_len: usize,
        dst: *mut u8,
        dst_len: usize,
    ) -> u8;
    fn labyrinth_decipher(
        n: usize,
        l: usize,
        key: *const u8,
        key_len: usize,
        src: *const u8,
        src_len: usize,
        dst: *mut u8,
        dst_len: usize,
    ) -> u8;
    fn labyrinth_cbc_seal(
        n: usize,
        l: usize,
        key: *const u8,
        key_len: usize,
        start: *const u8,
        start_len: usize,
        src: *const u8,
        src_len: usize,
        dst: *mut u8,
        dst_len: usize,
    ) -> u8;
    fn labyrinth_cbc_open(
        n: usize,
        l: usize,
        key: *const u8,
        key_len: usize,
        start: *const u8,
        start_len: usize,
        src: *const u8,
        src_len: usize,
        dst: *mut u8,
        dst_len: usize,
    ) -> u8;
    fn labyrinth_ctr(
        n: usize,
        l: usize,
        key: *const u8,
        key_len: usize,
        start: *const u8,
        start_len: usize,
        q: u64,
        src: *const u8,
        src_len: usize,
        dst: *mut u8,
        dst_len: usize,
    ) -> u8;
    fn labyrinth_cmac(l: usize, key: *const u8, key_len: usize, msg: *const u8, msg_len: usize, tag: *mut u8, tag_len: usize) -> u8;
    fn labyrinth_cmac_verify(
        l: usize,
        key: *const u8,
        key_len: usize,
        msg: *const u8,
        msg_len: usize,
        tag: *const u8,
        tag_len: usize,
        yes: *mut u8,
    ) -> u8;
    fn labyrinth_mix(word: u64) -> u64;
    fn labyrinth_mix_row(row: *const u8, row_len: usize, word: u64, out: *mut u64) -> u8;
    fn labyrinth_row_product(g: *const u8, g_len: usize, h: *const u8, h_len: usize, dst: *mut u8, dst_len: usize) -> u8;
    fn labyrinth_row_inverse(row: *const u8, row_len: usize, dst: *mut u8, dst_len: usize) -> u8;
    fn labyrinth_row_judge(row: *const u8, row_len: usize, yes: *mut u8, word: *mut u64) -> u8;
    fn labyrinth_store_fresh(store: *mut u8, store_len: usize) -> u8;
    fn labyrinth_store_load(
        store: *mut u8,
        store_len: usize,
        publisher: u64,
        set: u64,
        substitution: *const u8,
        substitution_len: usize,
        row: *const u8,
        row_len: usize,
    ) -> u8;
    fn labyrinth_store_take(store: *mut u8, store_len: usize, publisher: u64, set: u64) -> u8;
    fn labyrinth_expand(
        store: *const u8,
        store_len: usize,
        n: u64,
        l: u64,
        set: u64,
        key: *const u8,
        key_len: usize,
        working: *mut u8,
        working_len: usize,
    ) -> u8;
    fn labyrinth_key_encipher(
        store: *const u8,
        store_len: usize,
        working: *const u8,
        working_len: usize,
        src: *const u8,
        src_len: usize,
        dst: *mut u8,
        dst_len: usize,
    ) -> u8;
    fn labyrinth_key_decipher(
        store: *const u8,
        store_len: usize,
        working: *const u8,
        working_len: usize,
        src: *const u8,
        src_len: usize,
        dst: *mut u8,
        dst_len: usize,
    ) -> u8;
    fn labyrinth_key_encipher_by_matrix(
        store: *const u8,
        store_len: usize,
        working: *const u8,
        working_len: usize,
        src: *const u8,
        src_len: usize,
        dst: *mut u8,
        dst_len: usize,
    ) -> u8;
    fn labyrinth_key_decipher_by_matrix(
        store: *const u8,
        store_len: usize,
        working: *const u8,
        working_len: usize,
        src: *const u8,
        src_len: usize,
        dst: *mut u8,
        dst_len: usize,
    ) -> u8;
    fn labyrinth_key_cbc_seal(
        store: *const u8,
        store_len: usize,
        working: *const u8,
        working_len: usize,
        start: *const u8,
        start_len: usize,
        src: *const u8,
        src_len: usize,
        dst: *mut u8,
        dst_len: usize,
    ) -> u8;
    fn labyrinth_key_cbc_open(
        store: *const u8,
        store_len: usize,
        working: *const u8,
        working_len: usize,
        start: *const u8,
        start_len: usize,
        src: *const u8,
        src_len: usize,
        dst: *mut u8,
        dst_len: usize,
    ) -> u8;
    fn labyrinth_key_ctr(
        store: *const u8,
        store_len: usize,
        working: *const u8,
        working_len: usize,
        start: *const u8,
        start_len: usize,
        q: u64,
        src: *const u8,
        src_len: usize,
        dst: *mut u8,
        dst_len: usize,
    ) -> u8;
    fn labyrinth_key_cmac(
        store: *const u8,
        store_len: usize,
        working: *const u8,
        working_len: usize,
        msg: *const u8,
        msg_len: usize,
        tag: *mut u8,
        tag_len: usize,
    ) -> u8;
    fn labyrinth_key_cmac_verify(
        store: *const u8,
        store_len: usize,
        working: *const u8,
        working_len: usize,
        msg: *const u8,
        msg_len: usize,
        tag: *const u8,
        tag_len: usize,
        yes: *mut u8,
    ) -> u8;
    fn labyrinth_key_wrap(
        store: *const u8,
        store_len: usize,
        working: *const u8,
        working_len: usize,
        src: *const u8,
        src_len: usize,
        dst: *mut u8,
        dst_len: usize,
    ) -> u8;
    fn labyrinth_key_unwrap(
        store: *const u8,
        store_len: usize,
        working: *const u8,
        working_len: usize,
        src: *const u8,
        src_len: usize,
        dst: *mut u8,
        dst_len: usize,
    ) -> u8;
    fn labyrinth_page_write(
        store: *const u8,
        store_len: usize,
        sealing: *const u8,
        sealing_len: usize,
        tagging: *const u8,
        tagging_len: usize,
        number: u32,
        day: u32,
        title: *const u8,
        title_len: usize,
        start: *const u8,
        start_len: usize,
        body: *const u8,
        body_len: usize,
        dst: *mut u8,
        dst_len: usize,
    ) -> u8;
    fn labyrinth_page_catalogue(
        record: *const u8,
        record_len: usize,
        number: *mut u32,
        day: *mut u32,
        blocks: *mut u64,
        title_at: *mut u64,
    ) -> u8;
    fn labyrinth_page_open(
        store: *const u8,
        store_len: usize,
        sealing: *const u8,
        sealing_len: usize,
        tagging: *const u8,
        tagging_len: usize,
        record: *const u8,
        record_len: usize,
        dst: *mut u8,
        dst_len: usize,
    ) -> u8;
    fn labyrinth_register_add(reg: *mut u8, reg_len: usize, number: u16, replaces: u16, wrapped: *const u8, wrapped_len: usize) -> u8;
    fn labyrinth_register_find(
        reg: *const u8,
        reg_len: usize,
        number: u16,
        entry: *mut u8,
        entry_len: usize,
        rule: *mut u8,
        followed: *mut u64,
    ) -> u8;
}

/// Why the library refused: the number of documents 01 and 02. The destination, the tag to be made, the store or the register then holds what
/// it held before. (The library's 4 and 5 for rows that aren't eight bytes can't come about: [`mix_row`], [`row_product`], [`row_inverse`],
/// [`row_judge`] and [`Store::load`] take and give no others. Nor can its 4 for a store, a working key, a register or an entry's wrapped key
/// of another length.)
#[derive(Clone, Copy, Debug, PartialEq, Eq, Hash)]
#[non_exhaustive]
pub enum Error {
    /// 1: n isn't 1, 2 or 4.
    BlockSize,
    /// 2: l isn't 2, 3 or 4.
    KeySize,
    /// 3: the key isn't 8nl bytes; n is 1 for a tag.
    KeyLength,
    /// 4: the source isn't 16n bytes (a block), or no multiple of that (CBC), or a page's body isn't 0 to 4,096 whole blocks of 16 bytes.
    SourceLength,
    /// 5: the destination isn't 16n bytes (a block), isn't as long as the source (CBC, CTR), isn't eight bytes longer (wrapping) or shorter
    /// (unwrapping), or isn't of the record's length (a page written) or of its body's (a page opened).
    DestinationLength,
    /// 6: the start block isn't 16n bytes.
    StartLength,
    /// 11: the tag isn't 8 to 16 bytes.
    TagLength,
    /// 12: the working key's n isn't 1, for a tag, a wrapped key or a page record.
    TagBlockSize,
    /// 13: the row's coefficients XOR to zero.
    RowSum,
    /// 14: the substitution isn't 256 different bytes.
    Substitution,
    /// 15: the publisher or the set is outside the store, or the set isn't loaded.
    NotInStore,
    /// 16: someone holds the set, or it is set 0.
    SetHeld,
    /// 17: a key to be wrapped isn't 16 to 128 bytes, or one to be unwrapped isn't 24 to 136, in steps of 8.
    WrapLength,
    /// 18: the check value of a key to be unwrapped is wrong: it is altered, or under another master key or other tables.
    CheckValue,
    /// 19: the title of a page to be written isn't 32 bytes, or what is to be read is no page record.
    RecordLayout,
    /// 20: a page record's tag is wrong: it is altered, or under another tag key or other tables.
    RecordTag,
    /// 21: the number of a key to be added to a register is 0, or the register has it.
    KeyNumber,
    /// 22: the register doesn't have the number that a key to be added is to replace, or one of its keys replaces it already; or it doesn't have
    /// the number to be found.
    NotInRegister,
    /// 23: the register has 64 keys.
    RegisterFull,
    /// Another number, which this crate doesn't know.
    Unknown(u8),
}

impl Error {
    /// The number of documents 01 and 02.
    pub fn number(self) -> u8 {
        match self {
            Error::BlockSize => 1,
            Error::KeySize => 2,
            Error::KeyLength => 3,
            Error::SourceLength => 4,
            Error::DestinationLength => 5,
            Error::StartLength => 6,
            Error::TagLength => 11,
            Error::TagBlockSize => 12,
            Error::RowSum => 13,
            Error::Substitution => 14,
            Error::NotInStore => 15,
            Error::SetHeld => 16,
            Error::WrapLength => 17,
            Error::CheckValue => 18,
            Error::RecordLayout => 19,
            Error::RecordTag => 20,
            Error::KeyNumber => 21,
            Error::NotInRegister => 22,
            Error::RegisterFull => 23,
            Error::Unknown(number) => number,
        }
    }
}

impl fmt::Display for Error {
    fn fmt(&self, f: &mut fmt::Formatter<'_>) -> fmt::Result {
        let words = match self {
            Error::BlockSize => "n isn't 1, 2 or 4",
            Error::KeySize => "l isn't 2, 3 or 4",
            Error::KeyLength => "the key isn't 8nl bytes",
            Error::SourceLength => {
                "the source isn't 16n bytes, or for CBC no multiple of 16n bytes, or for a page record not 0 to 4,096 whole blocks of 16 bytes"
            }
            Error::DestinationLength => {
                "the destination isn't 16n bytes, or for CBC and CTR isn't as long as the source, or for a wrapped key isn't eight bytes longer or shorter, or for a page record isn't of its length or its body's"
            }
            Error::StartLength => "the start block isn't 16n bytes",
            Error::TagLength => "the tag isn't 8 to 16 bytes",
            Error::TagBlockSize => "n isn't 1, as it is for a tag, a wrapped key and a page record",
            Error::RowSum => "the row's coefficients XOR to zero",
            Error::Substitution => "the substitution isn't 256 different bytes",
            Error::NotInStore => "the publisher or the set is outside the store, or the set isn't loaded",
            Error::SetHeld => "someone holds the set",
            Error::WrapLength => "a key to be wrapped isn't 16 to 128 bytes, or one to be unwrapped isn't 24 to 136, in steps of 8",
            Error::CheckValue => "the wrapped key's check value is wrong",
            Error::RecordLayout => "the title isn't 32 bytes, or this is no page record",
            Error::RecordTag => "the page record's tag is wrong",
            Error::KeyNumber => "the key's number is 0, or the register has it",
            Error::NotInRegister => "the register doesn't have the number to be replaced or found, or one of its keys replaces it already",
            Error::RegisterFull => "the register has 64 keys",
            Error::Unknown(_) => "a number that the crate labyrinth doesn't know",
        };
        write!(f, "refused with {}: {words}", self.number())
    }
}

impl std::error::Error for Error {}

fn answer(number: u8) -> Result<(), Error> {
    match number {
        0 => Ok(()),
        1 => Err(Error::BlockSize),
        2 => Err(Error::KeySize),
        3 => Err(Error::KeyLength),
        4 => Err(Error::SourceLength),
        5 => Err(Error::DestinationLength),
        6 => Err(Error::StartLength),
        11 => Err(Error::TagLength),
        12 => Err(Error::TagBlockSize),
        13 => Err(Error::RowSum),
        14 => Err(Error::Substitution),
        15 => Err(Error::NotInStore),
        16 => Err(Error::SetHeld),
        17 => Err(Error::WrapLength),
        18 => Err(Error::CheckValue),
        19 => Err(Error::RecordLayout),
        20 => Err(Error::RecordTag),
        21 => Err(Error::KeyNumber),
        22 => Err(Error::NotInRegister),
        23 => Err(Error::RegisterFull),
        other => Err(Error::Unknown(other)),
    }
}

/// A key with its sizes: n is 1, 2 or 4, a block has 16n bytes; l is 2, 3 or 4, the key has 8nl bytes. Anything may stand here: each
/// operation answers with 1, 2 or 3 where it is not so, before it looks at anything else. The bytes are the caller's, who clears them.
#[derive(Clone, Copy)]
pub struct Key<'a> {
    /// Words of 64 bits in half a block.
    pub n: usize,
    /// Half-blocks in the key.
    pub l: usize,
    /// The key, first byte first.
    pub bytes: &'a [u8],
}

/// Shows n, l and the key's length, not its bytes.
impl fmt::Debug for Key<'_> {
    fn fmt(&self, f: &mut fmt::Formatter<'_>) -> fmt::Result {
        write!(f, "Key {{ n: {}, l: {}, bytes: {} not shown }}", self.n, self.l, self.bytes.len())
    }
}

/// A start block of 16n bytes, first byte first; of another length it is refused with 6. A type of its own, so that it can't be
/// exchanged with the source.
#[derive(Clone, Copy, Debug)]
pub struct Start<'a>(
    /// Its bytes.
    pub &'a [u8],
);

/// A key for tags, of 8l bytes: tags are at n = 1. Anything may stand here, as in a [`Key`], and be refused with 2 or 3. It is a type of its
/// own, since a tag's key should be used for nothing else. The bytes are the caller's, who clears them.
#[derive(Clone, Copy)]
pub struct TagKey<'a> {
    /// Half-blocks in the key: 2, 3 or 4.
    pub l: usize,
    /// The key, first byte first.
    pub bytes: &'a [u8],
}

/// Shows l and the key's length, not its bytes.
impl fmt::Debug for TagKey<'_> {
    fn fmt(&self, f: &mut fmt::Formatter<'_>) -> fmt::Result {
        write!(f, "TagKey {{ l: {}, bytes: {} not shown }}", self.l, self.bytes.len())
    }
}

// What the functions for a block, and those for CBC, have in common.
type Block = unsafe extern "C" fn(usize, usize, *const u8, usize, *const u8, usize, *mut u8, usize) -> u8;
type Cbc = unsafe extern "C" fn(usize, usize, *const u8, usize, *const u8, usize, *const u8, usize, *mut u8, usize) -> u8;

// Of every call below: a slice's pointer is valid for its length, and dst, the tag to be made, the store or the register, borrowed mutably, and
// yes, out, word, rule, followed, and a row, a store, a working key or an entry to be made, variables, overlap nothing else. That is all that
// the library asks of its caller; lengths and sizes may be anything.
impl Key<'_> {
    fn block(&self, map: Block, src: &[u8], dst: &mut [u8]) -> Result<(), Error> {
        let Key { n, l, bytes: key } = *self;
        answer(unsafe { map(n, l, key.as_ptr(), key.len(), src.as_ptr(), src.len(), dst.as_mut_ptr(), dst.len()) })
    }

    fn cbc(&self, run: Cbc, start: Start<'_>, src: &[u8], dst: &mut [u8]) -> Result<(), Error> {
        let (Key { n, l, bytes: key }, start) = (*self, start.0);
        let (from, to) = ((src.as_ptr(), src.len()), (dst.as_mut_ptr(), dst.len()));
        answer(unsafe { run(n, l, key.as_ptr(), key.len(), start.as_ptr(), start.len(), from.0, from.1, to.0, to.1) })
    }

    /// Enciphers one block of 16n bytes. Refused with 1, 2, 3, 4 or 5, the first that applies in this order.
    pub fn encipher(&self, src: &[u8], dst: &mut [u8]) -> Result<(), Error> {
        self.block(labyrinth_encipher, src, dst)
    }

    /// Deciphers one block of 16n bytes. Refused as in [`Key::encipher`].
    pub fn decipher(&self, src: &[u8], dst: &mut [u8]) -> Result<(), Error> {
        self.block(labyrinth_decipher, src, dst)
    }

    /// Seals whole blocks, any number of them, by CBC. Refused with 1, 2, 3, 6, 4 or 5, the first that applies in this order. A start
    /// block is for one page only, and nobody should be able to tell it beforehand. A changed sealed page is not noticed at opening.
    pub fn cbc_seal(&self, start: Start<'_>, src: &[u8], dst: &mut [u8]) -> Result<(), Error> {
        self.cbc(labyrinth_cbc_seal, start, src, dst)
    }

    /// Opens what [`Key::cbc_seal`] sealed with the same key and start block. Refused as there. With another key or start block, or of a
    /// changed page, it gives something else and says nothing. A changed page shows by its tag ([`TagKey::cmac_verify`]).
    pub fn cbc_open(&self, start: Start<'_>, src: &[u8], dst: &mut [u8]) -> Result<(), Error> {
        self.cbc(labyrinth_cbc_open, start, src, dst)
    }

    /// Seals or opens any number of bytes by CTR, which is the same. Block i has the counter start + q + i modulo 2^(128n), the start
    /// block read with its last byte least. Refused with 1, 2, 3, 6 or 5, the first that applies in this order.
    ///
    /// Never use one start block with overlapping counters for two pages under one key: whoever has both sealed pages then has the XOR of
    /// the pages. A changed sealed page is not noticed at opening.
    pub fn ctr(&self, start: Start<'_>, q: u64, src: &[u8], dst: &mut [u8]) -> Result<(), Error> {
        let (Key { n, l, bytes: key }, start) = (*self, start.0);
        answer(unsafe {
            labyrinth_ctr(
                n,
                l,
                key.as_ptr(),
                key.len(),
                start.as_ptr(),
                start.len(),
                q,
                src.as_ptr(),
                src.len(),
                dst.as_mut_ptr(),
                dst.len(),
            )
        })
    }

    /// Expands the key for a set of a store, which it then names: once for many pages. Refused with 1, 2, 15 (no such set, or it isn't
    /// loaded) or 3, the first that applies in this order.
    pub fn expand(&self, store: &Store, set: u64) -> Result<WorkingKey, Error> {
        let (Key { n, l, bytes: key }, sets) = (*self, &store.0);
        let mut made = [0; WorkingKey::LENGTH];
        let (n, l, to) = (n as u64, l as u64, (made.as_mut_ptr(), made.len()));
        answer(unsafe { labyrinth_expand(sets.as_ptr(), sets.len(), n, l, set, key.as_ptr(), key.len(), to.0, to.1) })?;
        Ok(WorkingKey(made))
    }
}

impl TagKey<'_> {
    /// Fills `tag`, whose length is the tag's, with the first bytes of the message's CMAC. A message has any length, 0 too. Refused with 2, 3
    /// or 11, the first that applies in this order.
    pub fn cmac(&self, msg: &[u8], tag: &mut [u8]) -> Result<(), Error> {
        let TagKey { l, bytes: key } = *self;
        answer(unsafe { labyrinth_cmac(l, key.as_ptr(), key.len(), msg.as_ptr(), msg.len(), tag.as_mut_ptr(), tag.len()) })
    }

    /// Whether `tag` is the first bytes of the message's CMAC. Refused as in [`TagKey::cmac`]. `Ok(false)` is a no: the message, the tag or
    /// the key is another, and what was sealed is not to be opened. So never drop the answer, as `key.cmac_verify(msg, tag)?;` would.
    pub fn cmac_verify(&self, msg: &[u8], tag: &[u8]) -> Result<bool, Error> {
        let TagKey { l, bytes: key } = *self;
        let (text, given) = ((msg.as_ptr(), msg.len()), (tag.as_ptr(), tag.len()));
        let mut yes = 0;
        answer(unsafe { labyrinth_cmac_verify(l, key.as_ptr(), key.len(), text.0, text.1, given.0, given.1, &mut yes) })?;
        Ok(yes == 1)
    }
}

/// Sets of tables that two publishers share: sets 0 to 3, each a substitution of 256 bytes and a row of eight coefficients, and which set
/// publishers 0 and 1 have taken. Set 0 is the published one in any store, whatever stands at its place, and can't be loaded. A set that
/// someone has taken can't be loaded anew, so its pages stay open to both. To use a set nobody has to take it.
///
/// ```
/// use labyrinth::{Error, Key, Start, Store};
///
/// // an archive's own tables: a substitution of 256 different bytes, a row that doesn't XOR to zero
/// let substitution: Vec<u8> = (0..=255).map(|byte: u8| byte.wrapping_mul(7) ^ 0x5C).collect();
/// let row = [0x04, 0xBE, 0x10, 0x02, 0x98, 0x10, 0xC6, 0xDB];
/// let mut store = Store::fresh();
/// store.load(0, 1, &substitution, &row)?;
/// store.take(0, 1)?;
/// assert_eq!(store.load(1, 1, &substitution, &row), Err(Error::SetHeld));
///
/// // expanded once, for set 1, and used for every page
/// let key = Key { n: 1, l: 2, bytes: &[7; 16] }.expand(&store, 1)?;
/// for (page, start) in [(b"first page.", [1; 16]), (b"second page", [2; 16])] {
///     let (mut sealed, mut opened) = ([0; 11], [0; 11]);
///     key.ctr(&store, Start(&start), 0, page, &mut sealed)?;
///     key.ctr(&store, Start(&start), 0, &sealed, &mut opened)?;
///     assert_eq!(&opened, page);
/// }
/// # Ok::<(), Error>(())
/// ```
#[derive(Clone, PartialEq, Eq)]
pub struct Store([u8; Store::LENGTH]);

/// Shows what the two publishers have taken, not the tables.
impl fmt::Debug for Store {
    fn fmt(&self, f: &mut fmt::Formatter<'_>) -> fmt::Result {
        write!(f, "Store {{ taken: {} and {}, sets not shown }}", number_at(&self.0, 1056), number_at(&self.0, 1064))
    }
}

impl Store {
    /// Bytes of a store.
    pub const LENGTH: usize = 1072;

    /// A fresh store: only set 0 is loaded, and none is taken.
    ///
    /// Never refused: the store's length is right by type. Were the library to refuse, that is a panic, as in [`row_product`].
    pub fn fresh() -> Store {
        let mut store = [0; Store::LENGTH];
        let number = unsafe { labyrinth_store_fresh(store.as_mut_ptr(), store.len()) };
        assert_eq!(number, 0, "the library refused a fresh store of {} bytes", Store::LENGTH);
        Store(store)
    }

    /// Loads a set: in the place of set `set`, for both publishers. A substitution's byte v, from 0 to 255, is what v is exchanged for.
    /// Refused with 15 (the publisher isn't 0 or 1, or the set isn't 0 to 3), 14, 13 or 16, the first that applies in this order. Neither takes
    /// the set nor drops one. Keys that name the set work with its new tables from then on: pages sealed before open under the old ones only.
    pub fn load(&mut self, publisher: u64, set: u64, substitution: &[u8], row: &[u8; 8]) -> Result<(), Error> {
        let (table, row) = ((substitution.as_ptr(), substitution.len()), (row.as_ptr(), row.len()));
        answer(unsafe { labyrinth_store_load(self.0.as_mut_ptr(), self.0.len(), publisher, set, table.0, table.1, row.0, row.1) })
    }

    /// Takes a set for a publisher, and drops the one that it took before: a set that is taken isn't loaded anew. Refused with 15 if the
    /// publisher or the set is outside the store or the set isn't loaded, and then what was taken before stays.
    pub fn take(&mut self, publisher: u64, set: u64) -> Result<(), Error> {
        answer(unsafe { labyrinth_store_take(self.0.as_mut_ptr(), self.0.len(), publisher, set) })
    }

    /// A store from its bytes, whatever they are: sets 0 to 3, each 256 bytes of substitution and 8 of row; then what publisher 0 has taken
    /// and what publisher 1 has, 8 bytes each, least first, a set's number, or 4 and above for none.
    pub fn from_bytes(bytes: [u8; Store::LENGTH]) -> Store {
        Store(bytes)
    }

    /// Its bytes, as in [`Store::from_bytes`].
    pub fn as_bytes(&self) -> &[u8; Store::LENGTH] {
        &self.0
    }
}

fn number_at(bytes: &[u8], at: usize) -> u64 {
    let mut number = [0; 8];
    number.copy_from_slice(&bytes[at..at + 8]);
    u64::from_le_bytes(number)
}

/// A key that was expanded ([`Key::expand`]) for a set of a [`Store`], to be used for many blocks and pages. It names its set by number; the
/// tables are the store's, so each call is handed the store. A call under a set that isn't loaded there is refused with 15, right after 1. With
/// set 0 it does what [`Key`] and [`TagKey`] do.
///
/// What was sealed opens again where the stores at expanding, sealing and opening have that set loaded with the same tables. With others it
/// opens to something else, and nothing tells. The key is not cleared from memory.
#[derive(Clone)]
pub struct WorkingKey([u8; WorkingKey::LENGTH]);

/// Shows n and the set, not the key's words.
impl fmt::Debug for WorkingKey {
    fn fmt(&self, f: &mut fmt::Formatter<'_>) -> fmt::Result {
        write!(f, "WorkingKey {{ n: {}, set: {}, words not shown }}", number_at(&self.0, 0), number_at(&self.0, 8))
    }
}

// What the functions for a block, a tag to be made or a wrapped key, and those for CBC, have in common.
type KeyBlock = unsafe extern "C" fn(*const u8, usize, *const u8, usize, *const u8, usize, *mut u8, usize) -> u8;
type KeyCbc = unsafe extern "C" fn(*const u8, usize, *const u8, usize, *const u8, usize, *const u8, usize, *mut u8, usize) -> u8;

impl WorkingKey {
    /// Bytes of a working key.
    pub const LENGTH: usize = 272;

    fn block(&self, map: KeyBlock, store: &Store, src: &[u8], dst: &mut [u8]) -> Result<(), Error> {
        let (sets, key) = (&store.0, &self.0);
        let (from, to) = ((src.as_ptr(), src.len()), (dst.as_mut_ptr(), dst.len()));
        answer(unsafe { map(sets.as_ptr(), sets.len(), key.as_ptr(), key.len(), from.0, from.1, to.0, to.1) })
    }

    fn cbc(&self, run: KeyCbc, store: &Store, start: Start<'_>, src: &[u8], dst: &mut [u8]) -> Result<(), Error> {
        let (sets, key, start) = (&store.0, &self.0, start.0);
        let (from, to) = ((src.as_ptr(), src.len()), (dst.as_mut_ptr(), dst.len()));
        answer(unsafe { run(sets.as_ptr(), sets.len(), key.as_ptr(), key.len(), start.as_ptr(), start.len(), from.0, from.1, to.0, to.1) })
    }

    /// Enciphers one block of 16n bytes, by the merged table. Refused with 1, 15, 4 or 5, the first that applies in this order.
    pub fn encipher(&self, store: &Store, src: &[u8], dst: &mut [u8]) -> Result<(), Error> {
        self.block(labyrinth_key_encipher, store, src, dst)
    }

    /// Deciphers one block of 16n bytes, by the merged table. Refused as in [`WorkingKey::encipher`].
    pub fn decipher(&self, store: &Store, src: &[u8], dst: &mut [u8]) -> Result<(), Error> {
        self.block(labyrinth_key_decipher, store, src, dst)
    }

    /// Gives what [`WorkingKey::encipher`] gives, by the matrix, which is slower. Refused as there.
    pub fn encipher_by_matrix(&self, store: &Store, src: &[u8], dst: &mut [u8]) -> Result<(), Error> {
        self.block(labyrinth_key_encipher_by_matrix, store, src, dst)
    }

    /// Gives what [`WorkingKey::decipher`] gives, by the matrix, which is slower. Refused as there.
    pub fn decipher_by_matrix(&self, store: &Store, src: &[u8], dst: &mut [u8]) -> Result<(), Error> {
        self.block(labyrinth_key_decipher_by_matrix, store, src, dst)
    }

    /// Seals whole blocks by CBC, as [`Key::cbc_seal`] does. Refused with 1, 15, 6, 4 or 5, the first that applies in this order.
    pub fn cbc_seal(&self, store: &Store, start: Start<'_>, src: &[u8], dst: &mut [u8]) -> Result<(), Error> {
        self.cbc(labyrinth_key_cbc_seal, store, start, src, dst)
    }

    /// Opens what [`WorkingKey::cbc_seal`] sealed. Refused as there.
    pub fn cbc_open(&self, store: &Store, start: Start<'_>, src: &[u8], dst: &mut [u8]) -> Result<(), Error> {
        self.cbc(labyrinth_key_cbc_open, store, start, src, dst)
    }

    /// Seals or opens any number of bytes by CTR, as [`Key::ctr`] does; its warning holds here too. Refused with 1, 15, 6 or 5, the first that
    /// applies in this order.
    pub fn ctr(&self, store: &Store, start: Start<'_>, q: u64, src: &[u8], dst: &mut [u8]) -> Result<(), Error> {
        let (sets, key, start) = (&store.0, &self.0, start.0);
        let (from, to) = ((src.as_ptr(), src.len()), (dst.as_mut_ptr(), dst.len()));
        answer(unsafe {
            labyrinth_key_ctr(
                sets.as_ptr(),
                sets.len(),
                key.as_ptr(),
                key.len(),
                start.as_ptr(),
                start.len(),
                q,
                from.0,
                from.1,
                to.0,
                to.1,
            )
        })
    }

    /// Fills `tag` with the first bytes of the message's CMAC, as [`TagKey::cmac`] does. Refused with 1, 15, 12 or 11, the first that applies in
    /// this order. A tag's key should be used for nothing else.
    pub fn cmac(&self, store: &Store, msg: &[u8], tag: &mut [u8]) -> Result<(), Error> {
        self.block(labyrinth_key_cmac, store, msg, tag)
    }

    /// Whether `tag` is the first bytes of the message's CMAC, as in [`TagKey::cmac_verify`]: `Ok(false)` is a no. Refused as in
    /// [`WorkingKey::cmac`].
    pub fn cmac_verify(&self, store: &Store, msg: &[u8], tag: &[u8]) -> Result<bool, Error> {
        let (sets, key) = (&store.0, &self.0);
        let (text, given) = ((msg.as_ptr(), msg.len()), (tag.as_ptr(), tag.len()));
        let mut yes = 0;
        answer(unsafe {
            labyrinth_key_cmac_verify(sets.as_ptr(), sets.len(), key.as_ptr(), key.len(), text.0, text.1, given.0, given.1, &mut yes)
        })?;
        Ok(yes == 1)
    }

    /// Wraps a key of 16 to 128 bytes, in steps of 8, by KW, to eight bytes more. `self` is a master key's, with n = 1, and should be used for
    /// nothing else. Refused with 1, 15, 12, 17 or 5, the first that applies in this order.
    ///
    /// ```
    /// use labyrinth::{Error, Key, Store};
    ///
    /// let store = Store::fresh();
    /// let master = Key { n: 1, l: 4, bytes: &[7; 32] }.expand(&store, 0)?;
    /// let (mut wrapped, mut key) = ([0; 24], [0; 16]);
    /// master.wrap(&store, &[9; 16], &mut wrapped)?;
    /// master.unwrap(&store, &wrapped, &mut key)?;
    /// assert_eq!(key, [9; 16]);
    /// wrapped[5] ^= 1;
    /// assert_eq!(master.unwrap(&store, &wrapped, &mut key), Err(Error::CheckValue));
    /// # Ok::<(), Error>(())
    /// ```
    pub fn wrap(&self, store: &Store, key: &[u8], dst: &mut [u8]) -> Result<(), Error> {
        self.block(labyrinth_key_wrap, store, key, dst)
    }

    /// Unwraps what [`WorkingKey::wrap`] wrapped, 24 to 136 bytes, in steps of 8, to eight bytes less. Refused with 1, 15, 12, 17, 5 or 18, the
    /// first that applies in this order. What it takes is just what wrapping makes of some key; with 18 the destination holds what it held.
    pub fn unwrap(&self, store: &Store, wrapped: &[u8], dst: &mut [u8]) -> Result<(), Error> {
        self.block(labyrinth_key_unwrap, store, wrapped, dst)
    }

    /// A working key from its bytes, whatever they are: n, the set and 32 words, 8 bytes each, least first. Of an illegal n it is refused with 1,
    /// of a set that isn't loaded with 15.
    pub fn from_bytes(bytes: [u8; WorkingKey::LENGTH]) -> WorkingKey {
        WorkingKey(bytes)
    }

    /// Its bytes, as in [`WorkingKey::from_bytes`]. They are as secret as the key.
    pub fn as_bytes(&self) -> &[u8; WorkingKey::LENGTH] {
        &self.0
    }
}

/// The article's mixing of a word.
pub fn mix(word: u64) -> u64 {
    unsafe { labyrinth_mix(word) }
}

/// Mixing of a word by a row of eight coefficients, g_0 first, in place of the published `01 01 03 0F 0A 1F 0F 0C`, in the article's field:
/// byte i, byte 0 the lowest, is the XOR over j of g_((i - j) mod 8) times byte j of the word. Refused with 13 if the coefficients XOR to
/// zero.
pub fn mix_row(row: &[u8; 8], word: u64) -> Result<u64, Error> {
    let mut out = 0;
    answer(unsafe { labyrinth_mix_row(row.as_ptr(), row.len(), word, &mut out) })?;
    Ok(out)
}

/// The product of two rows, any rows: coefficient i is the XOR over j of g_j times h_((i - j) mod 8). Mixing by g and then by h is mixing by
/// their product; it has an inverse exactly if both have.
///
/// Never refused: the library looks at lengths only, and those are right by type. Were it to refuse, the archive would be at fault and not
/// the caller, who could do nothing about an [`Error`]; so that is a panic.
pub fn row_product(g: &[u8; 8], h: &[u8; 8]) -> [u8; 8] {
    let mut dst = [0; 8];
    let number = unsafe { labyrinth_row_product(g.as_ptr(), g.len(), h.as_ptr(), h.len(), dst.as_mut_ptr(), dst.len()) };
    assert_eq!(number, 0, "the library refused to multiply two rows of eight bytes");
    dst
}

/// The inverse of a row: the one row whose product with it is 01 and seven 00. Mixing by it undoes mixing by the row. Refused with 13 if the
/// coefficients XOR to zero: there is none then.
///
/// So a word that was mixed by one row is converted to another, here the published one, without the word itself:
///
/// ```
/// use labyrinth::{mix, mix_row, row_inverse, row_product, Error};
///
/// let old = [0x02, 0x07, 0x01, 0x8E, 0x35, 0x11, 0xC4, 0x5B];
/// let published = [0x01, 0x01, 0x03, 0x0F, 0x0A, 0x1F, 0x0F, 0x0C];
/// let converting = row_product(&row_inverse(&old)?, &published);
/// let kept = mix_row(&old, 0x0123456789ABCDEF)?;
/// assert_eq!(mix_row(&converting, kept)?, mix(0x0123456789ABCDEF));
/// assert_eq!(row_inverse(&[1, 1, 0, 0, 0, 0, 0, 0]), Err(Error::RowSum));
/// # Ok::<(), Error>(())
/// ```
pub fn row_inverse(row: &[u8; 8]) -> Result<[u8; 8], Error> {
    let mut dst = [0; 8];
    answer(unsafe { labyrinth_row_inverse(row.as_ptr(), row.len(), dst.as_mut_ptr(), dst.len()) })?;
    Ok(dst)
}

/// What [`row_judge`] says of a row.
#[derive(Clone, Copy, Debug, PartialEq, Eq, Hash)]
#[must_use]
pub enum Verdict {
    /// Every word that isn't zero has nine or more bytes that aren't zero, counted before and after mixing by the row together.
    GoodEnough,
    /// This word isn't zero and has eight or fewer. Which such word is shown is left open.
    FallsShort(u64),
}

/// Judges a row, any row, also one that [`mix_row`] refuses: is it good enough, as the published one is? Takes about 5 ms for a yes, less for
/// a no.
///
/// Never refused: the row's length is right by type. Were the library to refuse, that is a panic, as in [`row_product`].
///
/// ```
/// use labyrinth::{mix_row, row_judge, Error, Verdict};
///
/// assert_eq!(row_judge(&[0x01, 0x01, 0x03, 0x0F, 0x0A, 0x1F, 0x0F, 0x0C]), Verdict::GoodEnough);
/// let active = |word: u64| word.to_le_bytes().iter().filter(|&&b| b != 0).count();
/// let row = [0x02, 0x07, 0x00, 0x8E, 0x35, 0x11, 0xC4, 0x5B];
/// match row_judge(&row) {
///     Verdict::GoodEnough => panic!("a row with a coefficient 00"),
///     Verdict::FallsShort(word) => assert!(word != 0 && active(word) + active(mix_row(&row, word)?) < 9),
/// }
/// # Ok::<(), Error>(())
/// ```
pub fn row_judge(row: &[u8; 8]) -> Verdict {
    let (mut yes, mut word) = (0, 0);
    let number = unsafe { labyrinth_row_judge(row.as_ptr(), row.len(), &mut yes, &mut word) };
    assert_eq!(number, 0, "the library refused to judge a row of eight bytes");
    if yes == 1 {
        Verdict::GoodEnough
    } else {
        Verdict::FallsShort(word)
    }
}

#[cfg(test)]
mod tests {
    use super::*;

    const MARK: u8 = 0xA5;
    const SIZES: [usize; 3] = [1, 2, 4];

    type Operation = fn(&Key<'_>, Start<'_>, &[u8], &mut [u8]) -> Result<(), Error>;
    const BLOCKS: [Operation; 2] = [|k, _, s, d| k.encipher(s, d), |k, _, s, d| k.decipher(s, d)];
    const CBC: [Operation; 2] = [|k, t, s, d| k.cbc_seal(t, s, d), |k, t, s, d| k.cbc_open(t, s, d)];
    const CTR: Operation = |k, t, s, d| k.ctr(t, 5, s, d);
    // n is passed over; for verifying, the start block is the tag, and the destination holds the answer
    const CMAC: Operation = |k, _, s, d| TagKey { l: k.l, bytes: k.bytes }.cmac(s, d);
    const VERIFY: Operation = |k, t, s, d| TagKey { l: k.l, bytes: k.bytes }.cmac_verify(s, t.0).map(|yes| d.fill(u8::from(yes)));

    // n, l and the lengths of key, start block, source and destination
    fn number_of(operation: Operation, [n, l, key, start, src, dst]: [usize; 6]) -> u8 {
        let (key, start, src) = (vec![1; key], vec![2; start], vec![3; src]);
        let mut held = vec![MARK; dst + 16];
        let number = match operation(&Key { n, l, bytes: &key }, Start(&start), &src, &mut held[8..8 + dst]) {
            Ok(()) => 0,
            Err(error) => error.number(),
        };
        assert!(held[..8].iter().chain(&held[8 + dst..]).all(|&b| b == MARK), "written past the destination");
        let touched = held.iter().any(|&b| b != MARK);
        assert_eq!(touched, number == 0 && dst > 0, "destination after {number}");
        number
    }

    // Each fault is mended in the order of the checks, so each number shows that it comes before all later ones.
    #[test]
    fn numbers_in_order() {
        for n in SIZES {
            for l in [2, 3, 4] {
                let (block, key) = (16 * n, 8 * n * l);
                for op in BLOCKS {
                    assert_eq!(number_of(op, [3, 9, key + 1, 0, block + 1, 0]), 1);
                    assert_eq!(number_of(op, [n, 9, key + 1, 0, block + 1, 0]), 2);
                    assert_eq!(number_of(op, [n, l, key + 1, 0, block + 1, 0]), 3);
                    assert_eq!(number_of(op, [n, l, key, 0, block + 1, 0]), 4);
                    assert_eq!(number_of(op, [n, l, key, 0, block, block - 1]), 5);
                    assert_eq!(number_of(op, [n, l, key, 0, block, block]), 0);
                }
                for op in [CBC[0], CBC[1], CTR] {
                    assert_eq!(number_of(op, [3, 9, key - 1, block - 1, block + 1, 0]), 1);
                    assert_eq!(number_of(op, [n, 9, key - 1, block - 1, block + 1, 0]), 2);
                    assert_eq!(number_of(op, [n, l, key - 1, block - 1, block + 1, 0]), 3);
                    assert_eq!(number_of(op, [n, l, key, block - 1, block + 1, 0]), 6);
                    assert_eq!(number_of(op, [n, l, key, block, 2 * block, 2 * block + 1]), 5);
                    assert_eq!(number_of(op, [n, l, key, block, 2 * block, 2 * block]), 0);
                    assert_eq!(number_of(op, [n, l, key, block, 0, 0]), 0);
                }
                for op in CBC {
                    assert_eq!(number_of(op, [n, l, key, block, block + 1, 0]), 4);
                    assert_eq!(number_of(op, [n, l, key, block, block - 1, block - 1]), 4);
                }
                assert_eq!(number_of(CTR, [n, l, key, block, block + 1, 0]), 5);
                assert_eq!(number_of(CTR, [n, l, key, block, block + 1, block + 1]), 0);
                assert_eq!(number_of(CTR, [n, l, key, block, 1, 1]), 0);
            }
        }
    }

    #[test]
    fn numbers_of_tags_in_order() {
        for l in [2, 3, 4] {
            for count in 0..=32 {
                let number = if (8..=16).contains(&count) { 0 } else { 11 };
                for (op, [tag, dst]) in [(CMAC, [0, count]), (VERIFY, [count, 1])] {
                    for msg in [0, 1, 16, 17, 40] {
                        assert_eq!(number_of(op, [1, 9, 8 * l - 1, tag, msg, dst]), 2);
                        assert_eq!(number_of(op, [1, l, 8 * l - 1, tag, msg, dst]), 3);
                        assert_eq!(number_of(op, [1, l, 16 * l, tag, msg, dst]), 3);
                        assert_eq!(number_of(op, [1, l, 8 * l, tag, msg, dst]), number);
                    }
                }
            }
        }
    }

    #[test]
    fn sizes_at_full_width() {
        let wide = |x: u64| usize::try_from(x).unwrap_or(usize::MAX);
        for op in [BLOCKS[0], BLOCKS[1], CBC[0], CBC[1], CTR] {
            for bad in [0, 3, 8, 257, wide((1 << 32) + 1), wide(1 << 62), usize::MAX] {
                assert_eq!(number_of(op, [bad, 2, 16, 16, 16, 16]), 1, "n = {bad}");
            }
        }
        for op in [BLOCKS[0], BLOCKS[1], CBC[0], CBC[1], CTR, CMAC, VERIFY] {
            for bad in [0, 1, 5, 258, wide((1 << 32) + 2), wide(1 << 61), usize::MAX] {
                assert_eq!(number_of(op, [1, bad, 16, 16, 16, 16]), 2, "l = {bad}");
            }
        }
    }

    #[test]
    fn errors_carry_the_number() {
        assert_eq!(answer(0), Ok(()));
        for number in 1..=255 {
            let error = answer(number).unwrap_err();
            assert_eq!(error.number(), number);
            assert!(error.to_string().starts_with(&format!("refused with {number}: ")));
            assert_eq!(matches!(error, Error::Unknown(_)), (7..=10).contains(&number) || number > 23);
        }
    }

    #[test]
    fn mixing() {
        assert_eq!(mix(0x1), 0x0C0F1F0A0F030101);
        assert_eq!(mix(0x100), 0x0F1F0A0F0301010C);
        assert_eq!(mix(0x0101010101010101), 0x1A1A1A1A1A1A1A1A);
    }

    const PUBLISHED: [u8; 8] = [0x01, 0x01, 0x03, 0x0F, 0x0A, 0x1F, 0x0F, 0x0C];
    const NEUTRAL: [u8; 8] = [1, 0, 0, 0, 0, 0, 0, 0];

    #[test]
    fn mixing_by_a_row() {
        for word in (0..64).map(|i| 0x0123456789ABCDEF_u64.rotate_left(i)).chain([0, 1, 0x100, u64::MAX]) {
            assert_eq!(mix_row(&PUBLISHED, word), Ok(mix(word)));
            assert_eq!(mix_row(&NEUTRAL, word), Ok(word));
            // g_k alone, 02: the word rotated by k bytes, each byte doubled modulo 12D
            let doubled = ((word & 0x7F7F7F7F7F7F7F7F) << 1) ^ ((word >> 7 & 0x0101010101010101) * 0x2D);
            for k in 0..8 {
                let mut row = [0; 8];
                row[k] = 2;
                assert_eq!(mix_row(&row, word), Ok(doubled.rotate_left(8 * k as u32)));
                row[(k + 3) % 8] = 2;
                assert_eq!(mix_row(&row, word), Err(Error::RowSum));
            }
            assert_eq!(mix_row(&[0; 8], word), Err(Error::RowSum));
            assert_eq!(mix_row(&[1, 2, 4, 8, 16, 32, 64, 127], word), Err(Error::RowSum));
        }
        assert_eq!(mix_row(&[0, 1, 2, 3, 4, 5, 6, 8], 1), Ok(0x0806050403020100));
    }

    // Any rows; none of those in the first half has an inverse.
    fn rows() -> Vec<[u8; 8]> {
        let mut row = PUBLISHED;
        let mut next = |accepted: bool| {
            for (i, b) in row.iter_mut().enumerate() {
                *b = b.wrapping_mul(0x8D).wrapping_add(0x37 + i as u8);
            }
            let rest = row[1..].iter().fold(0, |sum, b| sum ^ b);
            row[0] = if accepted { rest ^ row[0].max(1) } else { rest };
            row
        };
        let refused: Vec<_> = [[0; 8], [7; 8], [1, 2, 4, 8, 16, 32, 64, 127]].into_iter().chain((0..37).map(|_| next(false))).collect();
        refused.into_iter().chain([PUBLISHED, NEUTRAL, [0, 0, 0, 0, 0, 0, 0, 0xFF]]).chain((0..37).map(|_| next(true))).collect()
    }

    #[test]
    fn products_of_rows() {
        // g_k alone, 02: the row turned by k places, each coefficient doubled modulo 12D
        for k in 0..8 {
            let mut row = [0; 8];
            row[k] = 2;
            for g in rows() {
                let mut doubled = g.map(|b| (b << 1) ^ ((b >> 7) * 0x2D));
                doubled.rotate_right(k);
                assert_eq!(row_product(&g, &row), doubled);
            }
        }
        assert_eq!(row_product(&[0, 0, 0, 0, 0, 0, 0, 0x80], &[0, 0x80, 0, 0, 0, 0, 0, 0]), [0x72, 0, 0, 0, 0, 0, 0, 0]);
        for g in rows() {
            assert_eq!(row_product(&g, &NEUTRAL), g);
            for h in rows() {
                let product = row_product(&g, &h);
                assert_eq!(row_product(&h, &g), product);
                let both = mix_row(&g, 0x0123456789ABCDEF).and_then(|word| mix_row(&h, word));
                assert_eq!(mix_row(&product, 0x0123456789ABCDEF), both);
            }
        }
    }

    #[test]
    fn inverses_of_rows() {
        assert_eq!(row_inverse(&PUBLISHED), Ok([0x35, 0xC0, 0xC7, 0xA9, 0x9E, 0xC6, 0x2E, 0xF3]));
        let rows = rows();
        let (refused, accepted) = rows.split_at(rows.len() / 2);
        for row in refused {
            assert_eq!(row_inverse(row), Err(Error::RowSum));
        }
        for row in accepted {
            let inverse = row_inverse(row).unwrap();
            assert_eq!(row_product(row, &inverse), NEUTRAL);
            assert_eq!(row_inverse(&inverse), Ok(*row));
            let converting = row_product(&inverse, &PUBLISHED);
            for word in [0, 1, 0x100, 0x0123456789ABCDEF, u64::MAX] {
                let mixed = mix_row(row, word).unwrap();
                assert_eq!(mix_row(&inverse, mixed), Ok(word));
                assert_eq!(mix_row(&converting, mixed), Ok(mix(word)));
            }
        }
    }

    // The product of two bytes modulo 12D, bit by bit.
    fn times(a: u8, b: u8) -> u8 {
        (0..8).rev().fold(0, |sum, k| (sum << 1) ^ ((sum >> 7) * 0x2D) ^ ((b >> k & 1) * a))
    }

    // The bytes that aren't zero of a word that isn't zero, before and after mixing, which is not the library's.
    fn counted(row: &[u8; 8], word: u64) -> [usize; 2] {
        assert_ne!(word, 0);
        let (before, mut after) = (word.to_le_bytes(), [0; 8]);
        for i in 0..8 {
            for j in 0..8 {
                after[i] ^= times(row[(8 + i - j) % 8], before[j]);
            }
        }
        [before, after].map(|bytes| bytes.iter().filter(|&&b| b != 0).count())
    }

    // What a word shown with a no has; of a row that is good enough nothing.
    fn shown(row: &[u8; 8]) -> Option<[usize; 2]> {
        match row_judge(row) {
            Verdict::GoodEnough => None,
            Verdict::FallsShort(word) => Some(counted(row, word)),
        }
    }

    #[test]
    fn rows_that_are_good_enough() {
        let others = [0x04BE10029810C6DB_u64, 0x26E78B0DD8531F6D, 0x62A0172EB004E3B8, 0xF7693AE1A15DDD4B].map(u64::to_be_bytes);
        for row in others.into_iter().chain([PUBLISHED]) {
            assert_eq!(row_judge(&row), Verdict::GoodEnough);
        }
        // turned, and times a byte, a row has the same counts
        for k in 0..8 {
            let mut row = PUBLISHED.map(|b| times(b, 0x53 + k));
            row.rotate_right(k.into());
            assert_eq!(row_judge(&row), Verdict::GoodEnough);
        }
    }

    #[test]
    fn rows_that_fall_short() {
        let fewer = |row: &[u8; 8]| shown(row).is_some_and(|[before, after]| before + after < 9);
        assert!(fewer(&NEUTRAL));
        // rows that XOR to zero, the zero row first: the word of eight bytes 01 mixes to zero
        let rows = rows();
        for row in &rows[..rows.len() / 2] {
            assert!(fewer(row), "{row:02X?}");
        }
        // a coefficient 00: a word of one byte keeps a zero byte
        for k in 0..8 {
            let mut row = PUBLISHED;
            row[k] = 0;
            assert!(fewer(&row), "{row:02X?}");
        }
        // of these rows only submatrices with k lines are singular: all words that fall short have k bytes before and 8 - k after
        for (k, row) in [
            (1, 0x8A85DF00D0ECF6F6_u64),
            (2, 0x3BB24913DCB9692F),
            (3, 0xB70E4D055A92C838),
            (4, 0x10A55A79BE2CED87),
            (4, 0xE335104593C8CF93),
            (5, 0xF3E7F764D0E213BD),
            (6, 0xC2D335259B80C402),
            (7, 0x3514B16FF8CB62C3),
            (8, 0x453C187E302AE2E7),
        ] {
            assert_eq!(shown(&row.to_be_bytes()), Some([k, 8 - k]), "{row:016X}");
        }
    }

    // An archive's own tables, of set 1 below: byte v to 255 - v, the row 02 and seven 00.
    fn own() -> (Vec<u8>, [u8; 8]) {
        ((0..=255).rev().collect(), [2, 0, 0, 0, 0, 0, 0, 0])
    }

    fn store_with_own() -> Store {
        let (substitution, row) = own();
        let mut store = Store::fresh();
        store.load(1, 1, &substitution, &row).unwrap();
        store
    }

    // A call that is refused leaves the store as it was.
    fn refused_with(number: u8, store: &Store, call: impl FnOnce(&mut Store) -> Result<(), Error>) {
        let mut after = store.clone();
        assert_eq!(call(&mut after).map_err(Error::number), Err(number));
        assert!(after == *store, "a refused call changed the store");
    }

    #[test]
    fn loading_and_taking() {
        let (substitution, row) = own();
        let (twice, none) = ([&substitution[..255], &substitution[..1]].concat(), [5; 8]);
        let fresh = Store::fresh();
        for set in [1, 2, 3] {
            // each fault is mended in the order of the checks
            for (publisher, outside) in [(2, set), (0, set + 3), (1 << 32, set), (0, (1 << 32) + set), (u64::MAX, set), (1, u64::MAX)] {
                refused_with(15, &fresh, |s| s.load(publisher, outside, &twice, &none));
                refused_with(15, &fresh, |s| s.take(publisher, outside));
            }
            for wrong in [&twice[..], &substitution[1..], &[], &[0; 256]] {
                refused_with(14, &fresh, |s| s.load(0, set, wrong, &none));
            }
            refused_with(13, &fresh, |s| s.load(0, set, &substitution, &none));
            refused_with(13, &fresh, |s| s.load(0, set, &substitution, &[0; 8]));
            refused_with(15, &fresh, |s| s.take(1, set));
            let mut store = fresh.clone();
            for publisher in [0, 1, 0] {
                store.load(publisher, set, &substitution, &row).unwrap();
            }
            for publisher in [0, 1] {
                let mut taken = store.clone();
                taken.take(publisher, set).unwrap();
                taken.take(publisher, set).unwrap();
                for loader in [0, 1] {
                    refused_with(14, &taken, |s| s.load(loader, set, &twice, &none));
                    refused_with(13, &taken, |s| s.load(loader, set, &substitution, &none));
                    refused_with(16, &taken, |s| s.load(loader, set, &substitution, &row));
                }
                // a refused take keeps what was taken; another one, of set 0 too, drops it
                refused_with(15, &taken, |s| s.take(publisher, set % 3 + 1));
                taken.take(publisher, 0).unwrap();
                taken.load(1 - publisher, set, &substitution, &row).unwrap();
            }
        }
        for publisher in [0, 1] {
            refused_with(14, &fresh, |s| s.load(publisher, 0, &twice, &none));
            refused_with(13, &fresh, |s| s.load(publisher, 0, &substitution, &none));
            refused_with(16, &fresh, |s| s.load(publisher, 0, &substitution, &row));
        }
    }

    // A block enciphered with other tables: the value is from a program that was written from the papers alone.
    #[test]
    fn another_set() {
        let store = store_with_own();
        let key = Key { n: 1, l: 2, bytes: &[0; 16] };
        let working = key.expand(&store, 1).unwrap();
        let mut sealed = [0; 16];
        for map in [WorkingKey::encipher, WorkingKey::encipher_by_matrix] {
            map(&working, &store, &[0; 16], &mut sealed).unwrap();
            assert_eq!(u128::from_be_bytes(sealed), 0x1083C6BF7338B0D1A76B506917D2C2AB);
        }
        let mut opened = [1; 16];
        for map in [WorkingKey::decipher, WorkingKey::decipher_by_matrix] {
            map(&working, &store, &sealed, &mut opened).unwrap();
            assert_eq!(opened, [0; 16]);
        }
        // with another set, or this one loaded anew, it is another map
        let mut anew = store.clone();
        anew.load(0, 1, &own().0, &PUBLISHED).unwrap();
        for (store, set) in [(&store, 0), (&anew, 1)] {
            let mut other = *working.as_bytes();
            other[8] = set;
            let mut made = [0; 16];
            WorkingKey::from_bytes(other).encipher(store, &[0; 16], &mut made).unwrap();
            assert_ne!(made, sealed);
        }
    }

    // With set 0, in any store, a working key does what a key does.
    #[test]
    fn set_0_is_the_published_one() {
        let page: Vec<u8> = (0..3000).map(|i| (i * i % 251) as u8).collect();
        for store in [Store::fresh(), store_with_own(), Store::from_bytes([0x5A; Store::LENGTH]), Store::from_bytes([0; Store::LENGTH])] {
            for (n, l) in SIZES.into_iter().flat_map(|n| [2, 3, 4].map(|l| (n, l))) {
                let (key, start) = (Key { n, l, bytes: &page[9..9 + 8 * n * l] }, Start(&page[100..100 + 16 * n]));
                let working = key.expand(&store, 0).unwrap();
                let same = |of_key: &dyn Fn(&mut [u8]) -> Result<(), Error>, of_working: &dyn Fn(&mut [u8]) -> Result<(), Error>, count| {
                    let (mut one, mut other) = (vec![1; count], vec![2; count]);
                    of_key(&mut one).unwrap();
                    of_working(&mut other).unwrap();
                    assert!(one == other, "n = {n}, l = {l}, {count} bytes");
                };
                let block = &page[..16 * n];
                same(&|d| key.encipher(block, d), &|d| working.encipher(&store, block, d), 16 * n);
                same(&|d| key.encipher(block, d), &|d| working.encipher_by_matrix(&store, block, d), 16 * n);
                same(&|d| key.decipher(block, d), &|d| working.decipher(&store, block, d), 16 * n);
                same(&|d| key.decipher(block, d), &|d| working.decipher_by_matrix(&store, block, d), 16 * n);
                for count in [0, 16 * n, 48 * n, 2048 + 16 * n] {
                    let text = &page[..count];
                    same(&|d| key.cbc_seal(start, text, d), &|d| working.cbc_seal(&store, start, text, d), count);
                    same(&|d| key.cbc_open(start, text, d), &|d| working.cbc_open(&store, start, text, d), count);
                    let text = &page[..count + 5];
                    same(&|d| key.ctr(start, u64::MAX, text, d), &|d| working.ctr(&store, start, u64::MAX, text, d), count + 5);
                    if n == 1 {
                        let tagger = TagKey { l, bytes: key.bytes };
                        let mut tag = [0; 12];
                        tagger.cmac(text, &mut tag).unwrap();
                        same(&|d| tagger.cmac(text, d), &|d| working.cmac(&store, text, d), 12);
                        assert_eq!(working.cmac_verify(&store, text, &tag), Ok(true));
                        tag[11] ^= 1;
                        assert_eq!(working.cmac_verify(&store, text, &tag), Ok(false));
                    }
                }
            }
        }
    }

    // One key, many pages, with tables of an archive's own; the stores at sealing and opening differ in all else.
    #[test]
    fn pages_of_another_set() {
        let page: Vec<u8> = (0..3000).map(|i| (i * 7 % 253) as u8).collect();
        let sealing = store_with_own();
        let mut opening = store_with_own();
        opening.load(0, 2, &own().0, &PUBLISHED).unwrap();
        opening.take(1, 2).unwrap();
        for (n, l) in SIZES.into_iter().flat_map(|n| [2, 3, 4].map(|l| (n, l))) {
            let key = Key { n, l, bytes: &page[..8 * n * l] };
            let (working, start) = (key.expand(&sealing, 1).unwrap(), Start(&page[200..200 + 16 * n]));
            for count in [0, 16 * n, 32 * n, 2048 + 16 * n] {
                let (mut sealed, mut opened, mut published) = (vec![0; count], vec![0; count], vec![0; count]);
                working.cbc_seal(&sealing, start, &page[..count], &mut sealed).unwrap();
                working.cbc_open(&opening, start, &sealed, &mut opened).unwrap();
                assert!(opened == page[..count]);
                key.cbc_seal(start, &page[..count], &mut published).unwrap();
                assert!(count == 0 || sealed != published);
                working.ctr(&sealing, start, 3, &page[..count], &mut sealed).unwrap();
                working.ctr(&opening, start, 3, &sealed, &mut opened).unwrap();
                assert!(opened == page[..count]);
            }
        }
    }

    // Every length, by set 0 and tables of an archive's own; altered by any bit, or with another key or other tables, it isn't taken.
    #[test]
    fn wrapped_keys() {
        let bytes: Vec<u8> = (0..300).map(|i| (i * i % 241) as u8).collect();
        let wrapping = store_with_own();
        let mut unwrapping = store_with_own();
        unwrapping.load(0, 2, &own().0, &PUBLISHED).unwrap();
        let mut anew = store_with_own();
        anew.load(0, 1, &own().0, &PUBLISHED).unwrap();
        for (l, set) in [2, 3, 4].into_iter().flat_map(|l| [(l, 0), (l, 1)]) {
            let master = Key { n: 1, l, bytes: &bytes[..8 * l] }.expand(&wrapping, set).unwrap();
            let other = Key { n: 1, l, bytes: &bytes[1..1 + 8 * l] }.expand(&wrapping, set).unwrap();
            for count in (16..=128).step_by(8) {
                let key = &bytes[100..100 + count];
                let (mut wrapped, mut unwrapped) = (vec![0; count + 8], vec![0; count]);
                master.wrap(&wrapping, key, &mut wrapped).unwrap();
                master.unwrap(&unwrapping, &wrapped, &mut unwrapped).unwrap();
                assert_eq!(unwrapped, key);
                let mut no = |master: &WorkingKey, store: &Store, wrapped: &[u8]| {
                    unwrapped.fill(MARK);
                    assert_eq!(master.unwrap(store, wrapped, &mut unwrapped), Err(Error::CheckValue));
                    assert!(unwrapped.iter().all(|&b| b == MARK), "a key that was not taken is written");
                };
                no(&other, &wrapping, &wrapped);
                if set == 1 {
                    no(&master, &anew, &wrapped);
                }
                for bit in 0..8 * wrapped.len() {
                    wrapped[bit / 8] ^= 1 << (bit % 8);
                    no(&master, &wrapping, &wrapped);
                    wrapped[bit / 8] ^= 1 << (bit % 8);
                }
            }
        }
    }

    // Each fault is mended in the order of the checks; the destination stays after each.
    #[test]
    fn numbers_of_working_keys_in_order() {
        let store = store_with_own();
        let with = |n: u64, set: u64| {
            let mut bytes = [7; WorkingKey::LENGTH];
            bytes[..8].copy_from_slice(&n.to_le_bytes());
            bytes[8..16].copy_from_slice(&set.to_le_bytes());
            WorkingKey::from_bytes(bytes)
        };
        type Use = fn(&WorkingKey, &Store, &[u8], &[u8], &mut [u8]) -> Result<(), Error>;
        let blocks: [Use; 4] = [
            |k, s, _, from, to| k.encipher(s, from, to),
            |k, s, _, from, to| k.decipher(s, from, to),
            |k, s, _, from, to| k.encipher_by_matrix(s, from, to),
            |k, s, _, from, to| k.decipher_by_matrix(s, from, to),
        ];
        let chains: [Use; 2] =
            [|k, s, start, from, to| k.cbc_seal(s, Start(start), from, to), |k, s, start, from, to| k.cbc_open(s, Start(start), from, to)];
        let counts: Use = |k, s, start, from, to| k.ctr(s, Start(start), 1, from, to);
        let tags: [Use; 2] =
            [|k, s, _, from, to| k.cmac(s, from, to), |k, s, tag, from, to| k.cmac_verify(s, from, tag).map(|yes| to.fill(u8::from(yes)))];
        let wraps: Use = |k, s, _, from, to| k.wrap(s, from, to);
        let unwraps: Use = |k, s, _, from, to| k.unwrap(s, from, to);
        let number_of = |run: Use, key: &WorkingKey, [start, src, dst]: [usize; 3]| {
            let mut held = vec![MARK; dst];
            let number = run(key, &store, &vec![2; start], &vec![3; src], &mut held).map_or_else(Error::number, |()| 0);
            assert!(number == 0 || held.iter().all(|&b| b == MARK), "destination after {number}");
            number
        };
        for n in SIZES {
            let block = 16 * n;
            let n = n as u64;
            for unloaded in [2, 3, 4, 256, 1 << 32, u64::MAX] {
                for run in blocks.into_iter().chain(chains).chain([counts]).chain(tags).chain([wraps, unwraps]) {
                    assert_eq!(number_of(run, &with(3, unloaded), [1, 1, 1]), 1);
                    assert_eq!(number_of(run, &with(n, unloaded), [1, 1, 1]), 15);
                }
            }
            for set in [0, 1] {
                let key = with(n, set);
                for run in blocks {
                    assert_eq!(number_of(run, &key, [0, 1, 1]), 4);
                    assert_eq!(number_of(run, &key, [0, block, 1]), 5);
                    assert_eq!(number_of(run, &key, [0, block, block]), 0);
                }
                for run in chains {
                    assert_eq!(number_of(run, &key, [1, 1, 0]), 6);
                    assert_eq!(number_of(run, &key, [block, 1, 0]), 4);
                    assert_eq!(number_of(run, &key, [block, block, 0]), 5);
                    assert_eq!(number_of(run, &key, [block, block, block]), 0);
                }
                assert_eq!(number_of(counts, &key, [1, 1, 0]), 6);
                assert_eq!(number_of(counts, &key, [block, 1, 0]), 5);
                assert_eq!(number_of(counts, &key, [block, 1, 1]), 0);
                for run in tags {
                    assert_eq!(number_of(run, &key, [7, 1, 7]), if n == 1 { 11 } else { 12 });
                    assert_eq!(number_of(run, &key, [8, 1, 8]), if n == 1 { 0 } else { 12 });
                }
                for src in 0..=144_usize {
                    for dst in [0, 1, 7, 8, 9, 15, 16, 17].map(|more| (src + more).saturating_sub(8)) {
                        let wanted = |least: usize, right: usize, done: u8| match n {
                            1 if src % 8 != 0 || !(least..=least + 112).contains(&src) => 17,
                            1 if dst != right => 5,
                            1 => done,
                            _ => 12,
                        };
                        assert_eq!(number_of(wraps, &key, [0, src, dst]), wanted(16, src + 8, 0), "{src} to {dst}");
                        assert_eq!(number_of(unwraps, &key, [0, src, dst]), wanted(24, src.saturating_sub(8), 18), "{src} to {dst}");
                    }
                }
                // expansion: 1, 2, 15, 3
                let of = |n, l, bytes, set| Key { n, l, bytes }.expand(&store, set).map_or_else(Error::number, |_| 0);
                let (n, key) = (n as usize, vec![7; 8 * n as usize * 2]);
                assert_eq!((of(3, 9, &key[1..], 2), of(n, 9, &key[1..], 2)), (1, 2));
                assert_eq!((of(n, 2, &key[1..], 2), of(n, 2, &key[1..], set), of(n, 2, &key, set)), (15, 3, 0));
            }
        }
    }

    #[test]
    fn debug_hides_the_key() {
        let store = store_with_own();
        let working = Key { n: 1, l: 2, bytes: &[0xAB; 16] }.expand(&store, 1).unwrap();
        assert_eq!(format!("{working:?}"), "WorkingKey { n: 1, set: 1, words not shown }");
        assert_eq!(format!("{store:?}"), "Store { taken: 4 and 4, sets not shown }");
        let shown = format!("{:?}", Key { n: 1, l: 2, bytes: &[0xAB; 16] });
        assert_eq!(shown, "Key { n: 1, l: 2, bytes: 16 not shown }");
        let shown = format!("{:?}", TagKey { l: 2, bytes: &[0xAB; 16] });
        assert_eq!(shown, "TagKey { l: 2, bytes: 16 not shown }");
    }
}
