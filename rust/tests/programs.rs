//! The calls against the proved programs: the same bytes, from files through `./run encode` and
//! `./run decode`.

mod common;

use common::{bytes, of_samples};
use std::fs::{self, File};
use std::path::Path;
use std::process::{self, Command};
use std::sync::atomic::{AtomicUsize, Ordering};
use zelcandry::{code, decode, CODER_RESET, DECODER_RESET};

/// What a program makes of a file, and what it says.
fn run(words: &[&str], given: &[u8]) -> (Vec<u8>, String) {
    static RUNS: AtomicUsize = AtomicUsize::new(0);
    let own = format!("zelcandry-{}-{}", process::id(), RUNS.fetch_add(1, Ordering::Relaxed));
    let folder = std::env::temp_dir().join(own);
    fs::create_dir_all(&folder).unwrap();
    let (from, to) = (folder.join("in"), folder.join("out"));
    fs::write(&from, given).unwrap();
    let done = Command::new(Path::new(env!("CARGO_MANIFEST_DIR")).join("../run"))
        .args(words)
        .stdin(File::open(from).unwrap())
        .stdout(File::create(&to).unwrap())
        .output()
        .unwrap();
    let out = fs::read(to).unwrap();
    fs::remove_dir_all(folder).unwrap();
    (out, String::from_utf8(done.stderr).unwrap())
}

#[test]
fn same_as_the_programs() {
    for (kind, stream) in of_samples(8, 2 * 7001) {
        let given = bytes(&stream);
        let mut octets = vec![0; given.len() / 4];
        let mut state = CODER_RESET;
        for (from, to) in given.chunks(640).zip(octets.chunks_mut(160)) {
            code(&mut state, from, to).unwrap();
        }
        assert_eq!(run(&["encode"], &given), (octets.clone(), String::new()), "{kind:?}");
        for mode in 0..4u8 {
            let mut state = DECODER_RESET;
            let mut heard = vec![0; given.len()];
            for (from, to) in octets.chunks(160).zip(heard.chunks_mut(640)) {
                decode(&mut state, mode, from, to).unwrap();
            }
            assert_eq!(
                run(&["decode", &mode.to_string()], &octets),
                (heard, String::new()),
                "{kind:?} {mode}"
            );
        }
    }
}

#[test]
fn refused_alike() {
    let mut given = bytes(&[0; 2 * 8000]);
    for place in [0usize, 1, 15998, 15999] {
        given[2 * place] = 0x40;
        let refusal = code(&mut CODER_RESET.clone(), &given, &mut [0; 8000]).unwrap_err();
        let (octets, said) = run(&["encode"], &given);
        assert_eq!(said, format!("refused {} {}\n", refusal.number, refusal.index));
        assert_eq!(octets.len(), place / 2);
        given[2 * place] = 0;
    }
}
