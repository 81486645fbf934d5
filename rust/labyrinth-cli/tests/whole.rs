//! The command works a long file in pieces; the crate, in one call, gives the same.
use labyrinth::{Error, Key, Start};
use std::fs;
use std::process::Command;

const MIB: usize = 1 << 20;

fn hex(bytes: &[u8]) -> String {
    bytes.iter().map(|b| format!("{b:02x}")).collect()
}

#[test]
fn pieces_equal_the_whole() {
    let place = std::path::Path::new(env!("CARGO_TARGET_TMPDIR")).join(format!("whole.{}", std::process::id()));
    fs::create_dir_all(&place).unwrap();
    let (key_file, input, output) = (place.join("key"), place.join("in"), place.join("out"));
    let page: Vec<u8> = (0..3 * MIB as u64 + 192).map(|i| (i.wrapping_mul(0x9E3779B97F4A7C15) >> 56) as u8).collect();
    for (n, l) in [(1, 4), (2, 3), (4, 2)] {
        let bytes: Vec<u8> = (1..=8 * n as u8 * l as u8).collect();
        let (key, start) = (Key { n, l, bytes: &bytes }, vec![0xFF; 16 * n]);
        fs::write(&key_file, hex(&bytes)).unwrap();
        type Whole = fn(&Key<'_>, Start<'_>, &[u8], &mut [u8]) -> Result<(), Error>;
        let seal: Whole = |k, t, s, d| k.cbc_seal(t, s, d);
        let open: Whole = |k, t, s, d| k.cbc_open(t, s, d);
        // from the last q on: the counters of the later pieces are past 2^64
        let ctr: Whole = |k, t, s, d| k.ctr(t, u64::MAX, s, d);
        let lengths = [MIB - 64, MIB, MIB + 64, 3 * MIB + 192];
        let cases = lengths.into_iter().flat_map(|c| [("seal", "cbc", seal, c), ("open", "cbc", open, c), ("open", "ctr", ctr, c)]);
        for (way, mode, whole, count) in
            cases.chain([("seal", "ctr", ctr, 2 * MIB + 77), ("seal", "ctr", ctr, MIB - 1), ("seal", "ctr", ctr, MIB + 1)])
        {
            fs::write(&input, &page[..count]).unwrap();
            let mut command = Command::new(env!("CARGO_BIN_EXE_labyrinth"));
            command
                .args([way, "--mode", mode, "-n", &n.to_string(), "-l", &l.to_string(), "--start", &hex(&start), "--key-file"])
                .arg(&key_file);
            if mode == "ctr" {
                command.args(["--offset", "0xffffffffffffffff"]);
            }
            let status = command.arg(&input).arg(&output).status().unwrap();
            assert!(status.success(), "{way} {mode} {count}: {status}");
            let mut made = vec![0; count];
            whole(&key, Start(&start), &page[..count], &mut made).unwrap();
            assert!(fs::read(&output).unwrap() == made, "{way} {mode} at n = {n}: {count} bytes in pieces differ from the whole");
        }
    }
    fs::remove_dir_all(&place).unwrap();
}
