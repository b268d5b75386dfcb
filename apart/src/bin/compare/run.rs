//! Running a replay program on a log.

use std::io::{self, Read, Write};
use std::path::{Path, PathBuf};
use std::process::{Child, ChildStdin, ChildStdout, Command, ExitStatus, Stdio};
use std::sync::mpsc;
use std::thread;
use std::time::{Duration, Instant};

/// A program that has not answered a log after so long hangs.
const PATIENCE: Duration = Duration::from_secs(30);

/// No answer is longer than this, its line feed counted.
const LONGEST_ANSWER: usize = 64;

/// What a program answered, and what was wrong with its run.
pub struct Output {
    pub answers: Vec<u8>,
    pub fault: Option<String>,
}

impl Output {
    fn nothing(fault: String) -> Output {
        Output {
            answers: Vec::new(),
            fault: Some(fault),
        }
    }
}

/// Runs both programs on a log, at the same time.
pub fn run_both(programs: &[PathBuf; 2], log: &[u8], seed: u64) -> [Output; 2] {
    // Every eighth log comes in small pieces, so that lines are cut anywhere.
    let piece = if seed.is_multiple_of(8) {
        usize::try_from(seed / 8 % 700).unwrap_or(0) + 1
    } else {
        log.len().max(1)
    };
    let [one, two] = programs;
    thread::scope(|scope| {
        let other = scope.spawn(|| run(two, log, piece));
        let first = run(one, log, piece);
        let second = other
            .join()
            .unwrap_or_else(|_| Output::nothing("could not be run".into()));
        [first, second]
    })
}

/// Runs one program on a log: fed from one thread, read in another, watched from here.
fn run(program: &Path, log: &[u8], piece: usize) -> Output {
    let (mut child, input, output) = match start(program) {
        Ok(started) => started,
        Err(error) => return Output::nothing(format!("could not be started: {error}")),
    };
    let most = LONGEST_ANSWER * (log.len() + 2);
    let deadline = Instant::now() + PATIENCE;
    thread::scope(|scope| {
        let (send, receive) = mpsc::channel();
        scope.spawn(move || feed(input, log, piece));
        let reader = scope.spawn(move || {
            let answers = read_answers(output, most);
            // The watcher may have lost its patience meanwhile.
            let _ = send.send(());
            answers
        });
        // Whatever comes first: all answers, or the end of patience.
        let _ = receive.recv_timeout(PATIENCE);
        let fault = match end(&mut child, deadline) {
            Some(status) if status.success() => None,
            Some(status) => Some(format!("ended with {status}")),
            None => Some("hangs".into()),
        };
        let answers = reader.join().unwrap_or_default();
        Output { answers, fault }
    })
}

/// Reads to the end, but no more than any number of true answers could be.
fn read_answers(output: ChildStdout, most: usize) -> Vec<u8> {
    let mut answers = Vec::new();
    // What was read before an error still shows where the answers end.
    let _ = output.take(most as u64).read_to_end(&mut answers);
    answers
}

fn start(program: &Path) -> io::Result<(Child, ChildStdin, ChildStdout)> {
    let mut child = Command::new(program)
        .stdin(Stdio::piped())
        .stdout(Stdio::piped())
        .spawn()?;
    match (child.stdin.take(), child.stdout.take()) {
        (Some(input), Some(output)) => Ok((child, input, output)),
        _ => Err(io::Error::other("no pipes")),
    }
}

/// Writes a log piece by piece; a program that does not read to the end is judged by its answers.
fn feed(mut input: ChildStdin, log: &[u8], piece: usize) {
    for part in log.chunks(piece) {
        if input.write_all(part).is_err() {
            return;
        }
    }
}

/// Waits for a program's end, but no longer than patience lasts; then it is ended.
fn end(child: &mut Child, deadline: Instant) -> Option<ExitStatus> {
    let mut nap = Duration::from_micros(20);
    loop {
        if let Ok(Some(status)) = child.try_wait() {
            return Some(status);
        }
        if Instant::now() >= deadline {
            let _ = child.kill();
            let _ = child.wait();
            return None;
        }
        thread::sleep(nap);
        nap = (nap * 2).min(Duration::from_millis(20));
    }
}
