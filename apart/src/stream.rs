//! Bytes in, answers out: the input is cut into lines as it comes, in bounded memory.

use std::io::{self, BufRead, ErrorKind, Read, Write};

use crate::answer::GREETING;
use crate::record::LONGEST_LINE;
use crate::replay::Replay;

/// How much is read at a time.
const READ_AT_ONCE: usize = 128 * 1024;

/// Replays a log: every complete line read so far is answered before more is waited for.
pub fn replay(mut input: impl Read, mut output: impl Write) -> io::Result<()> {
    let mut replay = Replay::new();
    let mut lines = LineCutter::default();
    let mut buffer = vec![0; READ_AT_ONCE];
    let mut answers = GREETING.to_vec();
    loop {
        output.write_all(&answers)?;
        output.flush()?;
        answers.clear();
        match input.read(&mut buffer) {
            Ok(0) => break,
            Ok(count) => lines.cut(&buffer[..count], |line| {
                replay.answer(line).write_to(&mut answers);
            }),
            Err(error) if error.kind() == ErrorKind::Interrupted => {}
            Err(error) => return Err(error),
        }
    }
    if let Some(line) = lines.last() {
        replay.answer(line).write_to(&mut answers);
    }
    output.write_all(&answers)?;
    output.flush()
}

/// Cuts pieces of input into lines. Of an unfinished line it keeps just enough to know that the
/// line is too long, so a line it hands on may be shortened, but never to 400 bytes or fewer.
#[derive(Default)]
struct LineCutter {
    unfinished: Vec<u8>,
}

impl LineCutter {
    /// Hands each line that ends in this piece on, without its line feed.
    fn cut(&mut self, piece: &[u8], mut hand_on: impl FnMut(&[u8])) {
        let mut rest = piece;
        while let Some((line, after)) = split_line(rest) {
            if self.unfinished.is_empty() {
                hand_on(line);
            } else {
                self.keep(line);
                hand_on(&self.unfinished);
                self.unfinished.clear();
            }
            rest = after;
        }
        self.keep(rest);
    }

    /// The last line, if it lacks its line feed; a last line feed begins no further line.
    fn last(&self) -> Option<&[u8]> {
        (!self.unfinished.is_empty()).then_some(&self.unfinished)
    }

    fn keep(&mut self, part: &[u8]) {
        let room = LONGEST_LINE + 1 - self.unfinished.len();
        self.unfinished
            .extend_from_slice(&part[..part.len().min(room)]);
    }
}

/// The first line without its line feed, and what comes after; none if no line feed is there.
fn split_line(bytes: &[u8]) -> Option<(&[u8], &[u8])> {
    let mut after = bytes;
    let through_line_feed = after.skip_until(b'\n').ok()?;
    let line = bytes[..through_line_feed].strip_suffix(b"\n")?;
    Some((line, after))
}

#[cfg(test)]
mod tests {
    use super::*;

    /// Gives its bytes in pieces of one size, and an interruption before each.
    struct InPieces<'a> {
        rest: &'a [u8],
        size: usize,
        interrupted: bool,
    }

    impl Read for InPieces<'_> {
        fn read(&mut self, buffer: &mut [u8]) -> io::Result<usize> {
            self.interrupted = !self.interrupted;
            if self.interrupted {
                return Err(ErrorKind::Interrupted.into());
            }
            let (piece, rest) = self.rest.split_at(self.size.min(self.rest.len()));
            buffer[..piece.len()].copy_from_slice(piece);
            self.rest = rest;
            Ok(piece.len())
        }
    }

    fn answers(input: &[u8]) -> String {
        let mut output = Vec::new();
        replay(input, &mut output).expect("memory can be written");
        String::from_utf8(output).expect("answers are plain text")
    }

    fn answers_in_pieces(input: &[u8], size: usize) -> String {
        let pieces = InPieces {
            rest: input,
            size,
            interrupted: false,
        };
        let mut output = Vec::new();
        replay(pieces, &mut output).expect("memory can be written");
        String::from_utf8(output).expect("answers are plain text")
    }

    const SAMPLE: &[u8] = b"F\t3\nF\t3\nR\t3\nN\nT\nH\nR\t64\n";
    const SAMPLE_ANSWERS: &str = "board\t1\nF\t0\nF\t1\nR\t1\nN\t-\t64\nT\t1\nH\t104\nR\t103\n";

    #[test]
    fn the_papers_own_example() {
        assert_eq!(answers(SAMPLE), SAMPLE_ANSWERS);
    }

    #[test]
    fn it_does_not_matter_how_the_input_is_cut() {
        for size in 1..=SAMPLE.len() {
            assert_eq!(answers_in_pieces(SAMPLE, size), SAMPLE_ANSWERS);
        }
    }

    #[test]
    fn the_last_line_may_lack_its_line_feed() {
        assert_eq!(answers(b""), "board\t1\n");
        assert_eq!(answers(b"T"), "board\t1\nT\t1\n");
        assert_eq!(answers(b"T\n"), "board\t1\nT\t1\n");
        assert_eq!(answers(b"\n"), "board\t1\n?\n");
        assert_eq!(answers(b"T\n\n"), "board\t1\nT\t1\n?\n");
        assert_eq!(answers(b"T\r\nT"), "board\t1\n?\nT\t1\n");
    }

    #[test]
    fn a_long_line_is_one_question_mark_however_it_comes() {
        for length in [399, 400, 401, 402, 5000] {
            let mut input = vec![b'0'; length];
            input[..2].copy_from_slice(b"S\t");
            input.extend_from_slice(b"\nT\n");
            let first = if length == 400 { "S\t06\t0" } else { "?" };
            let expected = format!("board\t1\n{first}\nT\t1\n");
            assert_eq!(answers(&input), expected);
            for size in [1, 2, 3, 399, 400, 401, 402, 403] {
                assert_eq!(answers_in_pieces(&input, size), expected);
            }
        }
    }

    #[test]
    fn an_unfinished_line_is_kept_only_as_far_as_needed() {
        let mut lines = LineCutter::default();
        for _ in 0..1000 {
            lines.cut(&[b'N'; 1000], |_| panic!("no line ends here"));
        }
        assert_eq!(lines.unfinished.len(), LONGEST_LINE + 1);
        assert!(lines.unfinished.capacity() < 4096);
    }

    /// Counts the answers written each time it is flushed.
    #[derive(Default)]
    struct CountsAtFlush {
        lines: usize,
        at_flush: Vec<usize>,
    }

    impl Write for CountsAtFlush {
        fn write(&mut self, bytes: &[u8]) -> io::Result<usize> {
            self.lines += bytes.iter().filter(|&&byte| byte == b'\n').count();
            Ok(bytes.len())
        }

        fn flush(&mut self) -> io::Result<()> {
            self.at_flush.push(self.lines);
            Ok(())
        }
    }

    #[test]
    fn complete_lines_are_answered_before_more_is_read() {
        let mut output = CountsAtFlush::default();
        let input = b"T\n".chain(&b"T\nT\nN"[..]).chain(&b"\n"[..]);
        replay(input, &mut output).expect("counting never fails");
        assert_eq!(output.at_flush, [1, 2, 4, 5, 5]);
    }
}
