//! The programs on bytes: what they write and what they refuse.

use second::compare::{decode_all, encode_all, hear_all, join_all, mix_all};
use second::material::{self, Kind, Stream};
use second::{Desk, Wrong};
use std::io::Write;
use std::process::{Command, Stdio};

/// Runs a program on the input; its output and what it says on the side.
fn run(words: &[&str], input: &[u8]) -> (Vec<u8>, String) {
    let mut child = Command::new(env!("CARGO_BIN_EXE_second"))
        .args(words)
        .stdin(Stdio::piped())
        .stdout(Stdio::piped())
        .stderr(Stdio::piped())
        .spawn()
        .unwrap();
    let (mut stdin, input) = (child.stdin.take().unwrap(), input.to_vec());
    let feeder = std::thread::spawn(move || stdin.write_all(&input).ok());
    let done = child.wait_with_output().unwrap();
    feeder.join().unwrap();
    (done.stdout, String::from_utf8(done.stderr).unwrap())
}

/// Samples as bytes, the high byte first.
fn bytes(samples: &[i16]) -> Vec<u8> {
    samples.iter().flat_map(|sample| sample.to_be_bytes()).collect()
}

/// Noise of the whole range.
fn noise(n: usize) -> Vec<i16> {
    match material::stream(Kind::NoiseFull, 1, n) {
        Stream::Samples(samples) => samples,
        Stream::Octets(_) => panic!("noise is samples"),
    }
}

#[test]
fn long_streams_are_coded_and_decoded() {
    let samples = noise(50000);
    let octets = encode_all(&samples, Wrong::None);
    assert_eq!(run(&["encode"], &bytes(&samples)), (octets.clone(), String::new()));
    for mode in ["0", "1", "2", "3"] {
        let heard = decode_all(&octets, &[mode.parse().unwrap()], 8000, Wrong::None);
        assert_eq!(run(&["decode", mode], &octets), (bytes(&heard), String::new()));
    }
    assert_eq!(run(&["encode"], &[]), (vec![], String::new()));
}

#[test]
fn a_ragged_input_is_refused_after_its_whole_pairs() {
    let samples = noise(20);
    let octets = encode_all(&samples, Wrong::None);
    for surplus in 1..4 {
        let input = [bytes(&samples), vec![0; surplus]].concat();
        assert_eq!(run(&["encode"], &input), (octets.clone(), "refused 3 0\n".to_string()));
    }
}

#[test]
fn a_sample_out_of_range_is_refused_with_its_place_in_the_stream() {
    let mut samples = noise(20000);
    samples[17003] = -16385;
    let octets = encode_all(&noise(17002), Wrong::None);
    assert_eq!(run(&["encode"], &bytes(&samples)), (octets, "refused 4 17003\n".to_string()));
}

#[test]
fn a_mode_out_of_range_is_refused() {
    for mode in ["4", "256", "-1", "x"] {
        assert_eq!(run(&["decode", mode], &[0]), (vec![], "refused 1 0\n".to_string()));
        assert_eq!(run(&["hear", mode], &[0]), (vec![], "refused 1 0\n".to_string()));
    }
}

/// Low and high signals as bytes, each low one before its high one.
fn woven(signals: &[Vec<i16>; 2]) -> Vec<u8> {
    let pairs = signals[0].iter().zip(&signals[1]);
    bytes(&pairs.flat_map(|(rl, rh)| [*rl, *rh]).collect::<Vec<i16>>())
}

#[test]
fn long_streams_are_heard_and_joined() {
    let octets = encode_all(&noise(50000), Wrong::None);
    for mode in ["0", "1", "2", "3"] {
        let signals = hear_all(&octets, &[mode.parse().unwrap()], 8000, Wrong::None);
        assert_eq!(run(&["hear", mode], &octets), (woven(&signals), String::new()));
        let samples = run(&["decode", mode], &octets);
        assert_eq!(run(&["join"], &woven(&signals)), samples);
    }
    assert_eq!(run(&["hear", "1"], &[]), (vec![], String::new()));
    assert_eq!(run(&["join"], &[]), (vec![], String::new()));
    let exchanged =
        |words: &[&str], input: &[u8]| run(words, input) != run(&words[..words.len() - 1], input);
    assert!(exchanged(&["hear", "1", "SignalsExchanged"], &octets));
    assert!(exchanged(&["join", "SignalsExchanged"], &bytes(&noise(100))));
}

#[test]
fn pairs_are_joined_up_to_what_is_refused() {
    let signals = [noise(20000), noise(20001)[1..].to_vec()];
    let samples = bytes(&join_all(&signals, 8000, Wrong::None));
    for (place, band) in [(0, 0), (7999, 1), (8000, 0), (15000, 1), (19999, 0)] {
        let mut spoilt = signals.clone();
        spoilt[band][place] = -16385;
        spoilt[1 - band][19999] = 16384;
        let (out, said) = run(&["join"], &woven(&spoilt));
        assert_eq!((out.as_slice(), said), (&samples[..4 * place], format!("refused 4 {place}\n")));
    }
    for surplus in 1..4 {
        let input = [woven(&signals), vec![0; surplus]].concat();
        assert_eq!(run(&["join"], &input), (samples.clone(), "refused 3 0\n".to_string()));
    }
}

/// The octets of all ports, one of each after the other.
fn ticks(ports: &[Vec<u8>]) -> Vec<u8> {
    (0..ports[0].len()).flat_map(|tick| ports.iter().map(move |octets| octets[tick])).collect()
}

/// The lines of a desk's lamp: one for each 1000 ticks in which sums were limited.
fn lamp(ports: &[Vec<u8>], modes: &[u8]) -> String {
    let mut desk = Desk::reset(ports.len(), Wrong::None).unwrap();
    let given = ticks(ports);
    let tick = |tick| desk.tick(modes, tick, &mut vec![0; ports.len()]).unwrap();
    let counts: Vec<usize> = given.chunks(ports.len()).map(tick).collect();
    let turns = counts.chunks(1000).map(|turn| turn.iter().sum::<usize>()).filter(|sum| *sum > 0);
    turns.map(|sum| format!("overload: {sum} sums limited\n")).collect()
}

#[test]
fn a_desk_says_of_each_turn_how_many_sums_were_limited() {
    let port = |kind, seed| match material::stream(kind, seed, 2500) {
        Stream::Samples(samples) => encode_all(&samples, Wrong::None),
        Stream::Octets(octets) => octets,
    };
    let loud: Vec<Vec<u8>> = (0..3).map(|seed| port(Kind::Rhythm, seed)).collect();
    let quiet = vec![vec![0xfa; 2500]; 3];
    let words = ["desk", "3", "1", "2", "3"];
    assert_eq!(lamp(&loud, &[1, 2, 3]).lines().count(), 3);
    assert_eq!(run(&words, &ticks(&loud)).1, lamp(&loud, &[1, 2, 3]));
    assert_eq!(run(&words, &ticks(&quiet)).1, "");
    let late: Vec<Vec<u8>> = loud.iter().map(|port| [&[0xfa; 1000], &port[..1]].concat()).collect();
    assert_eq!(run(&words, &ticks(&late)).1, lamp(&late, &[1, 2, 3]));
    let cut = [ticks(&loud), vec![0]].concat();
    assert_eq!(run(&words, &cut).1, lamp(&loud, &[1, 2, 3]) + "refused 3 0\n");
}

#[test]
fn ports_are_mixed_up_to_the_last_whole_tick() {
    let port = |first: usize| encode_all(&noise(20007)[first..first + 20000], Wrong::None);
    let ports: Vec<Vec<u8>> = (0..8).map(port).collect();
    let words = ["desk", "8", "0", "1", "2", "3", "3", "2", "1", "0"];
    let mixed = |wrong| ticks(&mix_all(&ports, &[vec![0, 1, 2, 3, 3, 2, 1, 0]], wrong));
    let (sent, said) = (mixed(Wrong::None), lamp(&ports, &[0, 1, 2, 3, 3, 2, 1, 0]));
    assert_eq!(run(&words, &ticks(&ports)), (sent.clone(), said.clone()));
    let wrong = [&words[..], &["SumsUnlimited"]].concat();
    assert_eq!(run(&wrong, &ticks(&ports)), (mixed(Wrong::SumsUnlimited), said.clone()));
    assert_ne!(run(&wrong, &ticks(&ports)).0, sent);
    for surplus in 1..8 {
        let input = [ticks(&ports), vec![0; surplus]].concat();
        assert_eq!(run(&words, &input), (sent.clone(), said.clone() + "refused 3 0\n"));
    }
    assert_eq!(run(&words, &[]), (vec![], String::new()));
}

#[test]
fn the_words_of_a_desk_are_refused_in_their_order() {
    for ports in ["0", "1", "9", "255"] {
        for words in [&["desk", ports][..], &["desk", ports, "4", "x"]] {
            assert_eq!(run(words, &[0; 7]), (vec![], "refused 9 0\n".to_string()));
        }
    }
    for modes in [["4", "1"], ["1", "4"], ["1", "255"]] {
        let words = ["desk", "2", modes[0], modes[1]];
        assert_eq!(run(&words, &[0; 7]), (vec![], "refused 1 0\n".to_string()));
    }
    for words in
        ["desk", "desk 2", "desk 2 1", "desk x 1 1", "desk 256 1 1", "desk 2 4 1 None None"]
    {
        let (out, said) = run(&words.split(' ').collect::<Vec<&str>>(), &[0; 8]);
        assert!(out.is_empty() && said.starts_with("second encode"), "{words}: {said}");
    }
}

#[test]
fn data_goes_in_and_comes_out_in_calls() {
    let file = std::env::temp_dir().join(format!("second-{}", std::process::id()));
    let data: Vec<u8> = (0..1500u32).map(|i| (i * 7 % 251) as u8).collect();
    std::fs::write(&file, &data).unwrap();
    for (mode, n) in [("2", 12000), ("3", 6000)] {
        let (octets, said) = run(&["put", mode, file.to_str().unwrap()], &vec![0xfa; n]);
        assert_eq!((octets.len(), said), (n, String::new()));
        assert_eq!(run(&["take", mode], &octets), (data.clone(), String::new()));
    }
    let said = |mode, n| run(&["put", mode, file.to_str().unwrap()], &vec![0xfa; n]).1;
    assert_eq!(said("2", 12001), "refused 3 0\n");
    assert_eq!(said("1", 12000), "refused 5 0\n");
    assert_eq!(said("4", 12000), "refused 1 0\n");
    std::fs::remove_file(&file).unwrap();
}

#[test]
fn what_is_logged_is_listed() {
    let (recording, _) = run(&["log", "7", "1"], &[0xfa; 481]);
    assert_eq!(recording.len(), 1024);
    let lines = String::from_utf8(run(&["listing"], &recording).0).unwrap();
    assert!(lines.starts_with("7 0 1 480 ") && lines.contains("\n7 1 1 1 "), "{lines}");
    assert_eq!(run(&["log", "7", "4"], &[0xfa]), (vec![], "refused 8 0\n".to_string()));
    let twice = [&recording[..512], &recording[..512]].concat();
    assert_ne!(run(&["listing", "OneRun"], &twice), run(&["listing"], &twice));
    assert!(run(&["listing", "NoSuchError"], &twice).1.starts_with("second encode"));
}

#[test]
fn the_listing_writes_lines() {
    assert_eq!(run(&["listing"], &[0; 512]), (b"refused 7 0\n".to_vec(), String::new()));
    assert_eq!(run(&["listing"], &[]), (vec![], String::new()));
}

#[test]
fn material_is_written() {
    let (output, _) = run(&["material", "NoiseFull", "1", "100"], &[]);
    assert_eq!(output, bytes(&noise(100)));
    assert_eq!(run(&["material", "Directed", "0", "3"], &[]).0, [0x20; 3]);
}
