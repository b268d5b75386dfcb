//! What all logs together reached, and what was answered: a comparison that goes shallow fails.

use std::collections::BTreeMap;

use apart::generate::required;
use apart::reach::Reach;

use crate::difference::answers_of;

/// What all logs together reached and what was answered.
#[derive(Default)]
pub struct Seen {
    pub answers: u64,
    kinds: BTreeMap<String, u64>,
    reach: Reach,
}

/// Answers that enough logs must bring about.
const REQUIRED_ANSWERS: &[&str] = &[
    "?",
    "S 00",
    "S 05",
    "S 06",
    "S 07",
    "S 15",
    "S 16",
    "N sent",
    "N - 0",
    "N - 64",
    "E 0",
    "E 101",
    "E 102",
    "A 0",
    "A 03",
    "F 0",
    "F 1",
    "F 103",
    "R 0",
    "R 1",
    "R 103",
    "T",
    "B 0",
    "H 104",
    "H 01",
    "H 41",
    "H 02",
    "H 42",
    "H 44",
    "H C4",
    "H 4A",
    "H 4B",
    "H CB",
    "H 4E",
    "H 4F",
    "H 50",
    "H 52",
    "H D2",
    "H 53",
    "H 54",
    "H 59",
    "H residual below zero",
    "H residual 0",
    "H residual above zero",
    "H residual -2147483647",
];

impl Seen {
    pub fn add(&mut self, output: &[u8], reach: &Reach) {
        self.reach.add(reach);
        for answer in answers_of(output).into_iter().skip(1) {
            self.answers += 1;
            for kind in kinds_of(&String::from_utf8_lossy(answer)) {
                *self.kinds.entry(kind).or_default() += 1;
            }
        }
    }

    pub fn missing(&self) -> Vec<String> {
        let answers = REQUIRED_ANSWERS
            .iter()
            .filter(|&&kind| !self.kinds.contains_key(kind))
            .map(|kind| format!("  answer {kind}"));
        let spots = required()
            .filter(|&spot| self.reach.count(spot) == 0)
            .map(|(group, name)| format!("  {group}: {name}"));
        let fullness = [
            (self.reach.most_live < 32, "  32 live"),
            (self.reach.most_active < 8, "  8 active"),
        ];
        let fullness = fullness
            .iter()
            .filter(|(short, _)| *short)
            .map(|(_, name)| name.to_string());
        answers.chain(spots).chain(fullness).collect()
    }

    pub fn table(&self, whole: bool) -> String {
        let most = format!(
            "most live {}, most active {}\n",
            self.reach.most_live, self.reach.most_active
        );
        let answers = self.kinds.iter().map(|(kind, count)| entry(*count, kind));
        let mut spots: Vec<_> = required()
            .map(|spot| (self.reach.count(spot), spot))
            .collect();
        spots.sort_unstable();
        let required = format!("required spots reached: {}; least often:\n", spots.len());
        let shown = if whole { spots.len() } else { 8 };
        let spots = spots
            .iter()
            .take(shown)
            .map(|(count, (group, name))| entry(*count, &format!("{group}: {name}")));
        most + &in_columns(answers.collect(), 6) + &required + &in_columns(spots.collect(), 2)
    }
}

fn entry(count: u64, name: &str) -> String {
    format!("{count:>8} {name}")
}

/// Entries side by side.
fn in_columns(entries: Vec<String>, columns: usize) -> String {
    let width = entries.iter().map(String::len).max().unwrap_or(0) + 2;
    let row = |row: &[String]| {
        let cells: String = row.iter().map(|cell| format!("{cell:<width$}")).collect();
        format!("{}\n", cells.trim_end())
    };
    entries.chunks(columns).map(row).collect()
}

/// What an answer counts as: its letter with its status or refusal, and the sign of a residual.
fn kinds_of(answer: &str) -> Vec<String> {
    let fields: Vec<&str> = answer.trim_end().split('\t').collect();
    match fields[..] {
        ["H", _, status, _, _, residual] => {
            let mut kinds = vec![format!("H {status}"), sign_of(residual)];
            if residual == "-2147483647" {
                kinds.push("H residual -2147483647".into());
            }
            kinds
        }
        ["N", "-", looked_at] => vec![format!("N - {looked_at}")],
        ["N", ..] => vec!["N sent".into()],
        ["T", ..] => vec!["T".into()],
        [letter, number, ..] => vec![format!("{letter} {number}")],
        _ => vec![answer.trim_end().into()],
    }
}

fn sign_of(residual: &str) -> String {
    let sign = match residual {
        "0" => "0",
        below if below.starts_with('-') => "below zero",
        _ => "above zero",
    };
    format!("H residual {sign}")
}
