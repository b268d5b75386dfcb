//! Whether two programs answered a log alike, and where they did not.

use apart::generate::Log;

use crate::run::Output;

/// How much of a long line is shown.
const SHOWN: usize = 1000;

/// The answers if both outputs are the same and have one answer for each line.
pub fn same_answers<'a>(
    outputs: &'a [Output; 2],
    log: &Log,
    lines: usize,
) -> Result<&'a [u8], String> {
    let [one, two] = outputs;
    let differ = one.answers != two.answers;
    if differ || one.fault.is_some() || two.fault.is_some() {
        let mut told = Vec::new();
        for (name, output) in [("one", one), ("two", two)] {
            told.extend(output.fault.iter().map(|fault| format!("{name} {fault}")));
        }
        if differ {
            told.push(first_difference(&one.answers, &two.answers, log));
        }
        return Err(told.join("\n"));
    }
    let answers = answers_of(&one.answers).len();
    if answers != lines + 1 {
        return Err(format!(
            "both programs gave {answers} lines of output for {lines} lines"
        ));
    }
    Ok(&one.answers)
}

/// The lines of an output, each with its line feed if it has one.
pub fn answers_of(output: &[u8]) -> Vec<&[u8]> {
    output.split_inclusive(|&byte| byte == b'\n').collect()
}

/// The first input line whose answers differ, and both answers.
fn first_difference(one: &[u8], two: &[u8], log: &Log) -> String {
    let (one, two) = (answers_of(one), answers_of(two));
    let longest = one.len().max(two.len());
    let at = (0..longest)
        .find(|&at| one.get(at) != two.get(at))
        .unwrap_or(longest);
    let line = match at.checked_sub(1) {
        None => "before any line".into(),
        Some(index) => {
            let mut lines = log.bytes.split(|&byte| byte == b'\n');
            let text = lines.nth(index).map_or("(no such line)".into(), shown);
            format!("line {at}: {text}")
        }
    };
    let answer = |answers: &[&[u8]]| answers.get(at).map_or("(nothing)".into(), |a| shown(a));
    format!("{line}\none: {}\ntwo: {}", answer(&one), answer(&two))
}

/// Bytes as text that can be read, the end of long ones left out.
fn shown(bytes: &[u8]) -> String {
    let head = &bytes[..bytes.len().min(SHOWN)];
    let rest = bytes.len() - head.len();
    let more = if rest > 0 {
        format!("... and {rest} bytes more")
    } else {
        String::new()
    };
    format!("\"{}\"{more}", head.escape_ascii())
}
