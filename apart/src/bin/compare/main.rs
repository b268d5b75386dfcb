//! Compares two replay programs on log after log:
//! `compare --logs 2000 --lines 500 [--from SEED] [--whole-table] ONE TWO`.

use std::io::{self, Write};
use std::path::PathBuf;
use std::process::ExitCode;

use apart::generate::Log;

mod difference;
mod run;
mod seen;

use difference::same_answers;
use run::run_both;
use seen::Seen;

const USAGE: &str =
    "usage: compare [--logs COUNT] [--lines COUNT] [--from SEED] [--whole-table] ONE TWO";

struct Options {
    logs: u64,
    lines: usize,
    from: u64,
    whole_table: bool,
    programs: [PathBuf; 2],
}

fn main() -> ExitCode {
    let result = read_options(std::env::args().skip(1))
        .map_err(|fault| format!("{fault}\n{USAGE}"))
        .and_then(|options| compare(&options));
    match result {
        Ok(summary) => {
            let _ = write!(io::stdout(), "{summary}");
            ExitCode::SUCCESS
        }
        Err(fault) => {
            let _ = writeln!(io::stderr(), "compare: {fault}");
            ExitCode::FAILURE
        }
    }
}

fn read_options(mut arguments: impl Iterator<Item = String>) -> Result<Options, String> {
    let (mut logs, mut lines, mut from) = (2000, 500, 1);
    let mut whole_table = false;
    let mut programs = Vec::new();
    while let Some(argument) = arguments.next() {
        let mut value = || arguments.next().ok_or(format!("{argument} wants a value"));
        match argument.as_str() {
            "--logs" => logs = number(&value()?)?,
            "--lines" => lines = number(&value()?)?,
            "--from" => from = number(&value()?)?,
            "--whole-table" => whole_table = true,
            option if option.starts_with("--") => return Err(format!("unknown option {option}")),
            program => programs.push(PathBuf::from(program)),
        }
    }
    let programs = <[PathBuf; 2]>::try_from(programs).map_err(|_| "two programs are wanted")?;
    Ok(Options {
        logs,
        lines,
        from,
        whole_table,
        programs,
    })
}

fn number<N: std::str::FromStr>(text: &str) -> Result<N, String> {
    text.parse().map_err(|_| format!("{text} is not a number"))
}

/// Runs both programs on every log; the summary, or the first difference, or what was not reached.
fn compare(options: &Options) -> Result<String, String> {
    let mut seen = Seen::default();
    for seed in (0..options.logs).map(|number| options.from.wrapping_add(number)) {
        let log = Log::of_seed(seed, None, options.lines);
        let outputs = run_both(&options.programs, &log.bytes, seed);
        let answers = same_answers(&outputs, &log, options.lines)
            .map_err(|difference| with_source(&difference, options, seed, &log))?;
        seen.add(answers, &log.reach);
    }
    let missing = seen.missing();
    let head = format!(
        "{} logs of {} lines, {} answers, no difference",
        options.logs, options.lines, seen.answers
    );
    if missing.is_empty() {
        let table = seen.table(options.whole_table);
        Ok(format!("compare: {head}\n{table}"))
    } else {
        Err(format!(
            "{head}, but the logs are shallow; not reached:\n{}",
            missing.join("\n")
        ))
    }
}

/// A difference with the log it was found on and how to have it again.
fn with_source(difference: &str, options: &Options, seed: u64, log: &Log) -> String {
    let flavour = log.flavour.name();
    let lines = options.lines;
    let [one, two] = options.programs.each_ref().map(|path| path.display());
    format!(
        "difference at seed {seed}, flavour {flavour}\n{difference}\nto have it again:\n  \
         logs --seed {seed} --lines {lines} --flavour {flavour} > {seed}.log\n  \
         {one} < {seed}.log > {seed}.one\n  {two} < {seed}.log > {seed}.two"
    )
}
