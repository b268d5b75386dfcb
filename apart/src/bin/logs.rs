//! Prints a log: `logs --seed N --lines M [--flavour NAME]`.

use std::io::{self, BufWriter, ErrorKind, Write};
use std::process::ExitCode;

use apart::generate::{line_at, Flavour, Generator};

const USAGE: &str = "usage: logs --seed N --lines M [--flavour NAME] [--mixed-bench]";

struct Options {
    seed: u64,
    lines: usize,
    flavour: Option<Flavour>,
}

fn main() -> ExitCode {
    let options = match read_options(std::env::args().skip(1)) {
        Ok(options) => options,
        Err(fault) => return fail(&format!("{fault}\n{USAGE}\n{}", flavours())),
    };
    match print_log(&options) {
        Err(error) if error.kind() != ErrorKind::BrokenPipe => fail(&error.to_string()),
        _ => ExitCode::SUCCESS,
    }
}

fn fail(message: &str) -> ExitCode {
    let _ = writeln!(io::stderr(), "logs: {message}");
    ExitCode::FAILURE
}

fn flavours() -> String {
    let names: Vec<&str> = Flavour::ALL.iter().map(|flavour| flavour.name()).collect();
    format!("flavours: {}", names.join(", "))
}

fn read_options(mut arguments: impl Iterator<Item = String>) -> Result<Options, String> {
    let (mut seed, mut lines, mut flavour) = (None, None, None);
    while let Some(argument) = arguments.next() {
        let mut value = || arguments.next().ok_or(format!("{argument} wants a value"));
        match argument.as_str() {
            "--seed" => seed = Some(number(&value()?)?),
            "--lines" => lines = Some(number(&value()?)?),
            "--flavour" => {
                let name = value()?;
                let named = Flavour::named(&name).ok_or(format!("no flavour {name}"))?;
                flavour = Some(named);
            }
            "--mixed-bench" => flavour = Some(Flavour::Bench),
            other => return Err(format!("unknown argument {other}")),
        }
    }
    Ok(Options {
        seed: seed.ok_or("--seed is missing")?,
        lines: lines.ok_or("--lines is missing")?,
        flavour,
    })
}

fn number<N: std::str::FromStr>(text: &str) -> Result<N, String> {
    text.parse().map_err(|_| format!("{text} is not a number"))
}

fn print_log(options: &Options) -> io::Result<()> {
    let mut output = BufWriter::with_capacity(1 << 16, io::stdout().lock());
    let mut generator = Generator::new(options.seed, options.flavour);
    for number in 1..=options.lines {
        output.write_all(&line_at(&mut generator, number == options.lines))?;
    }
    output.flush()
}
