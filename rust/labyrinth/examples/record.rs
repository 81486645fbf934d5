//! Writes a page record, lists it as a catalogue does, without a key, and opens it; then alters one byte, which opening refuses. Shows what went in and
//! the record.
use labyrinth::page::{catalogue, length, open, write, Keys, Page, BLOCK};
use labyrinth::{Error, Key, Start, Store};

fn hex(bytes: &[u8]) -> String {
    bytes.iter().map(|b| format!("{b:02x}")).collect()
}

fn main() -> Result<(), Error> {
    // Records are at n = 1; l = 3 and l = 4: keys of 24 and 32 bytes. Real keys and a real start block are drawn at random, a start block for each page.
    let (bytes, tag_bytes): (Vec<u8>, Vec<u8>) = ((0..24).collect(), (0xE0..=0xFF).collect());
    // both by set 0, the published one, of the one store that serves both keys
    let store = Store::fresh();
    let sealing = Key { n: 1, l: 3, bytes: &bytes }.expand(&store, 0)?;
    let tagging = Key { n: 1, l: 4, bytes: &tag_bytes }.expand(&store, 0)?;
    let keys = Keys { store: &store, sealing: &sealing, tagging: &tagging };

    // a title of 32 bytes, and a body of whole blocks
    let title = b"Of the harbour, second part     ";
    let body = b"This body is three blocks of sixteen bytes each.";
    let page = Page { number: 17, day: 20014, title, start: Start(&[0x33; BLOCK]), body };
    let mut record = vec![0; length(body.len() / BLOCK)];
    write(&keys, &page, &mut record)?;

    // no key is needed for this, and nothing is verified
    let entry = catalogue(&record)?;
    assert_eq!((entry.number, entry.day, entry.title), (page.number, page.day, page.title));
    print!(
        "record l 3 key {} tag_l 4 tag_key {} number {} day {} title {}",
        hex(&bytes),
        hex(&tag_bytes),
        entry.number,
        entry.day,
        hex(entry.title)
    );
    println!(" start {} body {} written {}", hex(page.start.0), hex(body), hex(&record));

    let mut opened = vec![0; BLOCK * entry.blocks];
    open(&keys, &record, &mut opened)?;
    assert_eq!(opened, body);

    // the catalogue can't tell an altered title; the tag can
    record[11] ^= 1;
    assert_eq!(catalogue(&record)?.number, page.number);
    assert_eq!(open(&keys, &record, &mut opened), Err(Error::RecordTag));
    Ok(())
}
