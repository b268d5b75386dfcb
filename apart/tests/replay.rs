//! Whole logs through the replay, answers written out by hand from document 01.

use apart::stream;

fn answers(log: &str) -> String {
    let mut output = Vec::new();
    stream::replay(log.as_bytes(), &mut output).expect("memory can be written");
    String::from_utf8(output).expect("answers are plain text")
}

/// A sound block's line: its address, target and second flag byte; 4,096 bytes of data, 32 sense
/// bytes, timeout 2. Byte 7 and the fields of the hand-back begin as FFh.
fn submit(address: u8, target: u8, second_flags: u8) -> String {
    let mut block = [0u8; 88];
    block[0] = address;
    block[4] = 88;
    block[6] = 0x01;
    block[7] = 0xFF;
    block[10] = target;
    block[13] = second_flags;
    block[37] = 0x10;
    block[44] = 32;
    block[45] = 6;
    block[52..54].fill(0xFF);
    block[56..60].fill(0xFF);
    block[72] = 2;
    let digits: String = block.iter().map(|byte| format!("{byte:02X}")).collect();
    format!("S\t{digits}\n")
}

#[test]
fn a_request_from_submission_to_hand_back() {
    let log = submit(1, 3, 0) + "N\nE\t1\tC\t4096\t00\t-\nH\nH\n";
    let expected = "board\t1\nS\t00\t1\nN\t1\t24\t25\nE\t0\nH\t1\t01\t00\t0\t0\nH\t104\n";
    assert_eq!(answers(&log), expected);
}

#[test]
fn an_overrun_has_a_minus_sign() {
    let log = submit(1, 0, 0) + "N\nE\t1\tC\t4097\t00\t-\nH\n";
    let expected = "board\t1\nS\t00\t1\nN\t1\t0\t1\nE\t0\nH\t1\t52\t00\t0\t-1\n";
    assert_eq!(answers(&log), expected);
}

#[test]
fn a_check_condition_with_eighteen_sense_bytes() {
    let log = submit(1, 0, 0) + "N\nE\t1\tC\t0\t02\t33\nE\t1\tC\t0\t02\t18\nH\n";
    let expected = "board\t1\nS\t00\t1\nN\t1\t0\t1\nE\t102\nE\t0\nH\t1\tC4\t02\t14\t4096\n";
    assert_eq!(answers(&log), expected);
}

#[test]
fn a_later_priority_request_is_sent_first() {
    let log = [
        submit(1, 0, 0),
        submit(2, 0, 0x10),
        submit(3, 0, 0x10),
        "N\nE\t3\tC\t0\t04\t-\nN\n".into(),
    ];
    let expected = "board\t1\nS\t00\t1\nS\t00\t2\nS\t00\t3\nN\t3\t0\t1\nE\t0\nN\t2\t0\t64\n";
    assert_eq!(answers(&log.concat()), expected);
}

#[test]
fn an_overdue_request_is_aborted_and_its_unit_held() {
    let log = [
        submit(1, 0, 0),
        submit(2, 0, 0),
        "N\nT\nT\nE\t1\tK\t0\nT\nE\t1\tK\t0\nN\nH\nR\t0\nN\n".into(),
    ];
    let expected = "board\t1\nS\t00\t1\nS\t00\t2\nN\t1\t0\t1\nT\t1\nT\t2\nE\t102\nT\t3\nE\t0\n\
                    N\t-\t64\nH\t1\t4B\t00\t0\t4096\nR\t1\nN\t2\t0\t64\n";
    assert_eq!(answers(&log.concat()), expected);
}

#[test]
fn refused_blocks_and_tickets() {
    let log = [
        "S\t\n".into(),
        submit(1, 7, 0),
        submit(1, 0, 0),
        submit(1, 0, 0),
    ]
    .concat()
        + "A\t2\nA\t0\nE\t1\tK\t0\nA\t1\nA\t1\nH\nB\nF\t256\n";
    let expected = "board\t1\nS\t15\t0\nS\t06\t0\nS\t00\t1\nS\t06\t0\nA\t03\nA\t03\nE\t101\n\
                    A\t0\nA\t03\nH\t1\t02\t00\t0\t4096\nB\t0\nF\t103\n";
    assert_eq!(answers(&log), expected);
}
