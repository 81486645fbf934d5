//! The archivists' vectors (tests/archivists/vectors.json of the repository), all blocks, runs, tags and wrapped keys, through the crate; and the
//! page with tables of an archive's own that the paper for the successor has, which the archivists' program sealed.
use labyrinth::{Error, Key, Start, Store, TagKey};
use std::collections::HashMap;

struct Vector(HashMap<String, String>);

impl Vector {
    fn text(&self, name: &str) -> &str {
        self.0.get(name).unwrap_or_else(|| panic!("a vector without {name}"))
    }

    fn number(&self, name: &str) -> usize {
        self.text(name).parse().unwrap()
    }

    fn bytes(&self, name: &str) -> Vec<u8> {
        let text = self.text(name);
        assert!(text.len() % 2 == 0, "half a byte");
        (0..text.len()).step_by(2).map(|i| u8::from_str_radix(&text[i..i + 2], 16).unwrap()).collect()
    }
}

// The file has one name and value a line, told apart by their indent: 1 for a kind, 2 for a vector's braces, 3 for its parts.
fn vectors(kind: &str, count: usize, sizes: usize) -> Vec<Vector> {
    let path = concat!(env!("CARGO_MANIFEST_DIR"), "/../../tests/archivists/vectors.json");
    let text = std::fs::read_to_string(path).unwrap_or_else(|error| panic!("{path}: {error}"));
    let (mut inside, mut found) = (false, Vec::new());
    for line in text.lines() {
        let indent = line.len() - line.trim_start().len();
        let line = line.trim().trim_end_matches(',');
        match (indent, line) {
            (1, "]") => inside = false,
            (1, _) => inside = line == format!("\"{kind}\": ["),
            (2, "{") if inside => found.push(Vector(HashMap::new())),
            (3, _) if inside => {
                let (name, value) = line.split_once(": ").expect("a name and a value");
                found.last_mut().expect("a brace first").0.insert(name.replace('"', ""), value.replace('"', ""));
            }
            _ => (),
        }
    }
    assert_eq!(found.len(), count, "vectors of the kind {kind}");
    let held: std::collections::HashSet<_> = found.iter().map(|v| (v.number("n"), v.number("l"))).collect();
    assert_eq!(held.len(), sizes, "sizes of the kind {kind}");
    found
}

#[test]
fn blocks() {
    for v in vectors("block", 225, 9) {
        let (bytes, plain, sealed) = (v.bytes("key"), v.bytes("pt"), v.bytes("ct"));
        let key = Key { n: v.number("n"), l: v.number("l"), bytes: &bytes };
        let mut made = vec![0; plain.len()];
        key.encipher(&plain, &mut made).unwrap();
        assert_eq!(made, sealed);
        key.decipher(&sealed, &mut made).unwrap();
        assert_eq!(made, plain);
    }
}

#[test]
fn cbc() {
    for v in vectors("cbc", 72, 9) {
        let (bytes, start, plain, sealed) = (v.bytes("key"), v.bytes("iv"), v.bytes("pt"), v.bytes("ct"));
        let key = Key { n: v.number("n"), l: v.number("l"), bytes: &bytes };
        let mut made = vec![0; plain.len()];
        key.cbc_seal(Start(&start), &plain, &mut made).unwrap();
        assert_eq!(made, sealed);
        key.cbc_open(Start(&start), &sealed, &mut made).unwrap();
        assert_eq!(made, plain);
    }
}

#[test]
fn ctr() {
    for v in vectors("ctr", 360, 9) {
        let (bytes, start, plain, sealed) = (v.bytes("key"), v.bytes("start"), v.bytes("pt"), v.bytes("ct"));
        let key = Key { n: v.number("n"), l: v.number("l"), bytes: &bytes };
        let q = u64::from_str_radix(v.text("q"), 16).unwrap();
        let mut made = vec![0; plain.len()];
        key.ctr(Start(&start), q, &plain, &mut made).unwrap();
        assert_eq!(made, sealed);
        key.ctr(Start(&start), q, &sealed, &mut made).unwrap();
        assert_eq!(made, plain);
    }
}

#[test]
fn tags() {
    for v in vectors("cmac", 40, 3) {
        let (bytes, msg, tag) = (v.bytes("key"), v.bytes("msg"), v.bytes("tag"));
        assert_eq!((v.number("n"), v.number("taglen")), (1, tag.len()));
        let key = TagKey { l: v.number("l"), bytes: &bytes };
        let mut made = vec![0; tag.len()];
        key.cmac(&msg, &mut made).unwrap();
        assert_eq!(made, tag);
        assert_eq!(key.cmac_verify(&msg, &tag), Ok(true));
        for bit in 0..8 * tag.len() {
            made[bit / 8] ^= 1 << (bit % 8);
            assert_eq!(key.cmac_verify(&msg, &made), Ok(false));
            made[bit / 8] ^= 1 << (bit % 8);
        }
        let longer = [msg.as_slice(), &[0]].concat();
        assert_eq!(key.cmac_verify(&longer, &tag), Ok(false));
    }
}

#[test]
fn wrapped_keys() {
    for v in vectors("kw", 30, 3) {
        let (bytes, plain, wrapped) = (v.bytes("key"), v.bytes("pt"), v.bytes("ct"));
        // with the published tables, whatever the store holds
        for store in [Store::fresh(), Store::from_bytes([0x5A; Store::LENGTH])] {
            let master = Key { n: v.number("n"), l: v.number("l"), bytes: &bytes }.expand(&store, 0).unwrap();
            let mut made = vec![0; wrapped.len()];
            master.wrap(&store, &plain, &mut made).unwrap();
            assert_eq!(made, wrapped);
            let mut key = vec![0; plain.len()];
            master.unwrap(&store, &wrapped, &mut key).unwrap();
            assert_eq!(key, plain);
            made[0] ^= 1;
            assert_eq!(master.unwrap(&store, &made, &mut key), Err(Error::CheckValue));
        }
    }
}

// A block of docs/OPENING-A-PAGE.md: names, and what they say, lines of one name joined.
fn block(name: &str) -> Vector {
    let path = concat!(env!("CARGO_MANIFEST_DIR"), "/../../docs/OPENING-A-PAGE.md");
    let text = std::fs::read_to_string(path).unwrap_or_else(|error| panic!("{path}: {error}"));
    let (_, rest) = text.split_once(&format!("\n```{name}\n")).expect("the block");
    let mut found = Vector(HashMap::new());
    for line in rest.split("```").next().expect("its end").lines().filter(|line| !line.is_empty()) {
        let (name, value) = line.split_once(' ').expect("a name and a value");
        found.0.entry(name.to_string()).or_default().push_str(&value.replace(' ', ""));
    }
    found
}

#[test]
fn a_page_with_tables_of_its_own() {
    let (card, own) = (block("card"), block("card-tables"));
    let (bytes, start, q) = (card.bytes("key"), card.bytes("start"), card.number("q") as u64);
    let (substitution, row, sealed) = (own.bytes("subst"), own.bytes("row").try_into().unwrap(), own.bytes("sealed"));
    let key = Key { n: card.number("n"), l: card.number("l"), bytes: &bytes };
    let mut store = Store::fresh();
    for set in [1, 2, 3] {
        store.load(1, set, &substitution, &row).unwrap();
        let mut opened = vec![0; sealed.len()];
        key.expand(&store, set).unwrap().ctr(&store, Start(&start), q, &sealed, &mut opened).unwrap();
        assert_eq!(opened, b"This page was sealed for you who open it.");
        key.expand(&store, 0).unwrap().ctr(&store, Start(&start), q, &sealed, &mut opened).unwrap();
        assert_ne!(opened, b"This page was sealed for you who open it.");
    }
}
