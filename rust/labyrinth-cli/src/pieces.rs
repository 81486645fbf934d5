//! A run in pieces, with the result of one piece: in CTR the start block goes on by the blocks done (not q, which could pass 2^64); in CBC
//! the last sealed block is the next start block. The key is expanded once, before.
use labyrinth::{Error, Start, Store, WorkingKey};
use std::io::{self, Read, Write};

/// Bytes in a piece: a multiple of every block length.
pub const PIECE: usize = 1 << 20;

#[derive(Clone, Copy, Debug, PartialEq)]
pub enum Mode {
    Cbc,
    Ctr,
}

pub struct Task<'a> {
    pub seal: bool,
    pub mode: Mode,
    pub key: &'a WorkingKey,
    pub store: &'a Store,
    pub q: u64,
}

pub enum Failure {
    /// The number, the source's whole length, and the bytes already written.
    Refused {
        error: Error,
        length: u64,
        written: u64,
    },
    Read(io::Error),
    Write(io::Error),
}

impl Task<'_> {
    pub fn piece(&self, start: &[u8], src: &[u8], dst: &mut [u8]) -> Result<(), Error> {
        let (key, store, start) = (self.key, self.store, Start(start));
        match (self.mode, self.seal) {
            (Mode::Cbc, true) => key.cbc_seal(store, start, src, dst),
            (Mode::Cbc, false) => key.cbc_open(store, start, src, dst),
            (Mode::Ctr, _) => key.ctr(store, start, self.q, src, dst),
        }
    }

    /// The start block of what follows a piece of whole blocks.
    fn go_on(&self, start: &mut [u8], src: &[u8], dst: &[u8]) {
        match self.mode {
            Mode::Ctr => add(start, (src.len() / start.len()) as u64),
            Mode::Cbc => {
                let sealed = if self.seal { dst } else { src };
                let last = sealed.len() - start.len();
                start.copy_from_slice(&sealed[last..])
            }
        }
    }
}

/// Adds to a number whose last byte is least, modulo its size.
fn add(number: &mut [u8], count: u64) {
    let mut carry = count;
    for byte in number.iter_mut().rev() {
        // the byte and the carry's low byte only: their whole sum could pass 2^64
        let low = u64::from(*byte) + (carry & 0xFF);
        *byte = low as u8;
        carry = (carry >> 8) + (low >> 8);
    }
}

/// Works the whole input to the output; `piece` is a multiple of the block's length. `done` is told the bytes worked after each piece.
/// Returned are the bytes worked.
pub fn run(
    task: &Task<'_>,
    start: &[u8],
    piece: usize,
    mut input: impl Read,
    output: &mut impl Write,
    mut done: impl FnMut(u64),
) -> Result<u64, Failure> {
    let mut start = start.to_vec();
    let (mut src, mut dst) = (vec![0; piece], vec![0; piece]);
    let mut total = 0;
    loop {
        let count = fill(&mut input, &mut src).map_err(Failure::Read)?;
        let (src, dst) = (&src[..count], &mut dst[..count]);
        task.piece(&start, src, dst).map_err(|error| Failure::Refused { error, length: total + count as u64, written: total })?;
        output.write_all(dst).map_err(Failure::Write)?;
        total += count as u64;
        if count < piece {
            output.flush().map_err(Failure::Write)?;
            return Ok(total);
        }
        task.go_on(&mut start, src, dst);
        done(total);
    }
}

/// Reads until the buffer is full or the input ended.
fn fill(input: &mut impl Read, buffer: &mut [u8]) -> io::Result<usize> {
    let mut count = 0;
    while count < buffer.len() {
        match input.read(&mut buffer[count..]) {
            Ok(0) => break,
            Ok(more) => count += more,
            Err(e) if e.kind() == io::ErrorKind::Interrupted => (),
            Err(e) => return Err(e),
        }
    }
    Ok(count)
}

#[cfg(test)]
mod tests {
    use super::*;
    use labyrinth::Key;

    /// The published set, and one of an archive's own.
    fn sets() -> [(Store, u64); 2] {
        let (mut store, other) = (Store::fresh(), (0..=255).rev().collect::<Vec<u8>>());
        store.load(0, 1, &other, &[2, 0, 0, 0, 0, 0, 0, 0]).unwrap();
        [(Store::fresh(), 0), (store, 1)]
    }

    /// Gives a few bytes at a time, as a pipe may, and is interrupted now and then.
    struct Dribble<'a>(&'a [u8], usize);

    impl Read for Dribble<'_> {
        fn read(&mut self, buffer: &mut [u8]) -> io::Result<usize> {
            self.1 += 1;
            if self.1 % 5 == 0 {
                return Err(io::ErrorKind::Interrupted.into());
            }
            let count = buffer.len().min(self.0.len()).min(1 + self.1 % 7);
            buffer[..count].copy_from_slice(&self.0[..count]);
            self.0 = &self.0[count..];
            Ok(count)
        }
    }

    #[test]
    fn pieces_give_the_whole() {
        let bytes: Vec<u8> = (0..1100).map(|i| (i * i % 251) as u8).collect();
        let (sets, mut tried) = (sets(), 0);
        let sizes = [1, 2, 4].into_iter().flat_map(|n| [2, 3, 4].map(|l| (n, l)));
        for ((n, l), (store, set)) in sizes.flat_map(|size| sets.iter().map(move |set| (size, set))) {
            let block = 16 * n;
            let key = &Key { n, l, bytes: &bytes[3..3 + 8 * n * l] }.expand(store, *set).unwrap();
            for (mode, seal) in [(Mode::Cbc, true), (Mode::Cbc, false), (Mode::Ctr, true), (Mode::Ctr, false)] {
                // the last counter, one before it, and one in the middle
                for (first, q) in [(0xFF, u64::MAX), (0xFF, 1), (0x00, u64::MAX - 1), (0x5A, 0)] {
                    let start = vec![first; block];
                    let task = Task { seal, mode, key, store, q };
                    for blocks in [0, 1, 2, 3, 4, 6, 7, 12] {
                        for rest in if mode == Mode::Ctr { vec![0, 1, block - 1] } else { vec![0] } {
                            let page = &bytes[..blocks * block + rest];
                            let mut whole = vec![0; page.len()];
                            task.piece(&start, page, &mut whole).unwrap();
                            for piece in [1, 2, 3, 5] {
                                let mut made = Vec::new();
                                let count = run(&task, &start, piece * block, Dribble(page, 0), &mut made, |_| ());
                                assert!(matches!(count, Ok(count) if count == page.len() as u64));
                                assert!(made == whole, "n = {n}, l = {l}, {mode:?}, {} bytes in pieces of {piece} blocks", page.len());
                                tried += 1;
                            }
                        }
                    }
                }
            }
        }
        assert_eq!(tried, 2 * 9 * 4 * 8 * 4 * (2 + 2 * 3));
    }

    #[test]
    fn a_cut_block_is_refused_at_the_end() {
        let store = Store::fresh();
        let key = &Key { n: 1, l: 2, bytes: &[1; 16] }.expand(&store, 0).unwrap();
        let task = Task { seal: true, mode: Mode::Cbc, key, store: &store, q: 0 };
        for (count, before) in [(15, 0), (33, 32), (47, 32)] {
            let got = run(&task, &[0; 16], 32, Dribble(&vec![7; count], 0), &mut Vec::new(), |_| ());
            match got {
                Err(Failure::Refused { error, length, written }) => {
                    assert_eq!((error, length, written), (Error::SourceLength, count as u64, before))
                }
                _ => panic!("{count} bytes were not refused"),
            }
        }
    }

    #[test]
    fn addition() {
        let mut number = [0xFF; 16];
        add(&mut number, 1);
        assert_eq!(number, [0; 16]);
        add(&mut number, u64::MAX);
        add(&mut number, u64::MAX);
        assert_eq!(u128::from_be_bytes(number), u128::from(u64::MAX) * 2);
        let mut number = [0xFF; 16];
        add(&mut number, u64::MAX);
        assert_eq!(u128::from_be_bytes(number), u128::from(u64::MAX) - 1);
    }
}
