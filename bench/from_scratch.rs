//! What `bitview plain` is measured against: an unverified program that evaluates the view of the job `branches` from
//! scratch, as one would write it without a thought for proofs. At each read it takes the changes at or before the pair,
//! sorts them by row, adds up equal rows, joins both sides in one pass, sorts the branches and counts them in one pass.
//! It reads the one plan of that job, and no other.
//!
//! A row has room for as many columns as the second word says: 8, as a row of a command file may have, or the 2 that are
//! needed here. `rustc -O bench/from_scratch.rs` builds it.
use std::collections::HashMap;
use std::error::Error;
use std::io::{BufWriter, Write};

type Row<const COLUMNS: usize> = [i64; COLUMNS];

/// A change of a row of two columns.
struct Change<const COLUMNS: usize> {
    valid: u64,
    system: u64,
    row: Row<COLUMNS>,
    diff: i64,
}

/// A row of these columns.
fn row_of<const COLUMNS: usize>(columns: &[i64]) -> Row<COLUMNS> {
    let mut row = [0; COLUMNS];
    row[..columns.len()].copy_from_slice(columns);
    row
}

/// The rows at a pair, sorted, with their counts.
fn rows_at<const COLUMNS: usize>(changes: &[Change<COLUMNS>], valid: u64, system: u64) -> Vec<(Row<COLUMNS>, i64)> {
    let mut rows: Vec<_> = changes
        .iter()
        .filter(|change| change.valid <= valid && change.system <= system)
        .map(|change| (change.row, change.diff))
        .collect();
    rows.sort_unstable();
    added_up(rows)
}

/// Adds up neighbours with the same row, and drops those that add up to 0.
fn added_up<R: PartialEq + Copy>(rows: Vec<(R, i64)>) -> Vec<(R, i64)> {
    let mut sums: Vec<(R, i64)> = Vec::new();
    for (row, count) in rows {
        match sums.last_mut() {
            Some(last) if last.0 == row => last.1 += count,
            _ => sums.push((row, count)),
        }
    }
    sums.retain(|(_, count)| *count != 0);
    sums
}

/// The number of postings of each branch: postings `account amount` joined with accounts `account branch`.
fn branches<const COLUMNS: usize>(postings: &[(Row<COLUMNS>, i64)], accounts: &[(Row<COLUMNS>, i64)]) -> Vec<(Row<COLUMNS>, i64)> {
    let mut joined = Vec::new();
    let mut first = 0;
    for (posting, count) in postings {
        while first < accounts.len() && accounts[first].0[0] < posting[0] {
            first += 1;
        }
        for (account, times) in accounts[first..].iter().take_while(|entry| entry.0[0] == posting[0]) {
            joined.push((row_of(&[account[1]]), count * times));
        }
    }
    joined.sort_unstable();
    added_up(joined)
}

fn run<const COLUMNS: usize>(text: &str) -> Result<(), Box<dyn Error>> {
    let mut inputs: HashMap<&str, Vec<Change<COLUMNS>>> = HashMap::from([("posted", Vec::new()), ("accounts", Vec::new())]);
    let mut out = BufWriter::new(std::io::stdout());
    for line in text.lines() {
        let words: Vec<_> = line.split(' ').collect();
        match words[..] {
            ["change", input, valid, system, diff, first, second] => {
                inputs.get_mut(input).ok_or("an unknown input")?.push(Change {
                    valid: valid.parse()?,
                    system: system.parse()?,
                    row: row_of(&[first.parse()?, second.parse()?]),
                    diff: diff.parse()?,
                });
            }
            ["read", "branches", valid, system] => {
                let (at, known) = (valid.parse()?, system.parse()?);
                let rows = branches(&rows_at(&inputs["posted"], at, known), &rows_at(&inputs["accounts"], at, known));
                writeln!(out, "read branches {valid} {system} {}", rows.len())?;
                for (row, count) in rows {
                    writeln!(out, "1 {} {count}", row[0])?;
                }
            }
            _ => {}
        }
    }
    Ok(())
}

fn main() -> Result<(), Box<dyn Error>> {
    let words: Vec<String> = std::env::args().collect();
    let usage = "usage: from_scratch FILE 2|8";
    let text = std::fs::read_to_string(words.get(1).ok_or(usage)?)?;
    match words.get(2).map(String::as_str) {
        Some("2") => run::<2>(&text),
        Some("8") => run::<8>(&text),
        _ => Err(usage.into()),
    }
}
