//! The logs themselves: exact in length, the same for a seed, and no malformed line of the form.

use apart::generate::malformed::{Bait, Malformed};
use apart::generate::{Flavour, Log};
use apart::record::Record;
use apart::rng::Rng;
use apart::stream;

fn answers(log: &[u8]) -> Vec<u8> {
    let mut output = Vec::new();
    stream::replay(log, &mut output).expect("memory can be written");
    output
}

fn line_count(output: &[u8]) -> usize {
    output.split_inclusive(|&byte| byte == b'\n').count()
}

#[test]
fn a_log_has_exactly_as_many_lines_as_asked() {
    for &flavour in Flavour::ALL {
        for lines in [0, 1, 2, 37, 400] {
            for seed in 0..8 {
                let log = Log::of_seed(seed, Some(flavour), lines);
                assert_eq!(line_count(&log.bytes), lines);
                assert_eq!(line_count(&answers(&log.bytes)), lines + 1);
            }
        }
    }
}

#[test]
fn a_seed_gives_the_same_log_each_time_and_another_seed_another() {
    for seed in 0..20 {
        let log = Log::of_seed(seed, None, 300);
        assert_eq!(Log::of_seed(seed, None, 300).bytes, log.bytes);
        assert_eq!(Log::of_seed(seed, Some(log.flavour), 300).bytes, log.bytes);
        assert_ne!(Log::of_seed(seed + 1, None, 300).bytes, log.bytes);
    }
}

#[test]
fn a_bench_log_has_only_lines_of_the_form_and_nothing_is_refused() {
    let log = Log::of_seed(3, Some(Flavour::Bench), 5000);
    for line in log.bytes.split_inclusive(|&byte| byte == b'\n') {
        assert!(Record::parse(&line[..line.len() - 1]).is_some());
    }
    let refused = String::from_utf8(answers(&log.bytes)).expect("answers are plain text");
    for answer in refused.lines() {
        assert!(
            !answer.starts_with("E\t1") && answer != "H\t104",
            "{answer}"
        );
        assert!(!answer.starts_with("S\t0") || answer.starts_with("S\t00"));
    }
}

#[test]
fn every_malformed_kind_is_never_of_the_form() {
    let mut rng = Rng::new(11);
    for &kind in Malformed::ALL {
        for round in 0..300 {
            let bait = Bait {
                ticket: rng.number() % 600,
                data_length: rng.pick(&[0, 13, 14, 19, 4096, 0x00FF_FFFF]),
                unit: rng.below(56) as u8,
                block: vec![0xAB; rng.pick(&[88, 120, 199])],
            };
            let line = kind.make(&mut rng, &bait);
            assert!(!line.contains(&b'\n'), "{}", kind.name());
            let shown = line.escape_ascii();
            let name = kind.name();
            assert_eq!(Record::parse(&line), None, "{name}, round {round}: {shown}");
        }
    }
}

#[test]
fn the_lengths_of_long_lines_are_what_their_kinds_say() {
    let mut rng = Rng::new(12);
    let bait = Bait {
        ticket: 1,
        data_length: 0,
        unit: 0,
        block: vec![0; 88],
    };
    for (kind, length) in [
        (Malformed::Of400Bytes, 400),
        (Malformed::Of401Bytes, 401),
        (Malformed::Of402Bytes, 402),
    ] {
        for _ in 0..50 {
            assert_eq!(kind.make(&mut rng, &bait).len(), length);
        }
    }
}
