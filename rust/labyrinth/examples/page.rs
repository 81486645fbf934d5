//! Seals a page of whole blocks by CBC, and one of any length by CTR, tags them, and verifies the tags and opens the pages again; shows what
//! goes on each card. The start block and q are on the card, as the key is, and so not tagged.
use labyrinth::{Error, Key, Start, TagKey};

fn hex(bytes: &[u8]) -> String {
    bytes.iter().map(|b| format!("{b:02x}")).collect()
}

fn main() -> Result<(), Error> {
    // n = 2: blocks of 32 bytes; l = 3: keys of 48. A real key and a real start block are drawn at random, a start block for each page.
    let bytes: Vec<u8> = (0..48).collect();
    let key = Key { n: 2, l: 3, bytes: &bytes };
    // tags are at n = 1: l = 4 gives keys of 32 bytes; this key is for nothing else
    let tag_bytes: Vec<u8> = (0xE0..=0xFF).collect();
    let (tag_key, mut tag) = (TagKey { l: 4, bytes: &tag_bytes }, [0; 16]);

    // whole blocks, by CBC
    let page = [b"Sealed by CBC: a page of 2 block".as_slice(), b"s, each of them of 32 bytes long"].concat();
    let start = [0x11; 32];
    let (mut sealed, mut opened) = (vec![0; page.len()], vec![0; page.len()]);
    key.cbc_seal(Start(&start), &page, &mut sealed)?;
    tag_key.cmac(&sealed, &mut tag)?;
    assert!(tag_key.cmac_verify(&sealed, &tag)?, "altered: not to be opened");
    key.cbc_open(Start(&start), &sealed, &mut opened)?;
    assert_eq!(opened, page);
    print!("cbc n 2 l 3 key {} start {} page {} sealed {}", hex(&bytes), hex(&start), hex(&page), hex(&sealed));
    println!(" tag_l 4 tag_key {} tag {}", hex(&tag_bytes), hex(&tag));

    // any length, by CTR from block q on: never one start block with overlapping counters for two pages under one key
    let page = b"Sealed by CTR: a page of any length at all.";
    let (start, q) = ([0x22; 32], 7);
    let (mut sealed, mut opened) = (vec![0; page.len()], vec![0; page.len()]);
    key.ctr(Start(&start), q, page, &mut sealed)?;
    tag_key.cmac(&sealed, &mut tag)?;
    assert!(tag_key.cmac_verify(&sealed, &tag)?, "altered: not to be opened");
    key.ctr(Start(&start), q, &sealed, &mut opened)?;
    assert_eq!(opened, page);
    print!("ctr n 2 l 3 key {} start {} q {q} page {} sealed {}", hex(&bytes), hex(&start), hex(page), hex(&sealed));
    println!(" tag_l 4 tag_key {} tag {}", hex(&tag_bytes), hex(&tag));

    // an altered page would open to something too; its tag shows it
    sealed[0] ^= 1;
    assert!(!tag_key.cmac_verify(&sealed, &tag)?);
    Ok(())
}
