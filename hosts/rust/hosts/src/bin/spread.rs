//! Puts together what several runs of one benchmark have printed, tables in Markdown among it.
//!
//!     spread RUN..    the files that the runs were written to
//!
//! What is the same in all runs stays. A cell of a table that is a number in all becomes the median, with the least and
//! the greatest in brackets. Anything else that differs is an error.

use std::env;
use std::fs;
use std::process::exit;

/// `median (least–greatest)`, with so many decimals.
fn median_and_spread(mut numbers: Vec<f64>, decimals: usize) -> String {
    numbers.sort_by(f64::total_cmp);
    let (least, greatest) = (numbers[0], numbers[numbers.len() - 1]);
    let median = (numbers[(numbers.len() - 1) / 2] + numbers[numbers.len() / 2]) / 2.0;
    format!("{median:.decimals$} ({least:.decimals$}–{greatest:.decimals$})")
}

/// The number that digits stand for, perhaps with a point among them.
fn number(cell: &str) -> Option<f64> {
    let is_plain = cell.bytes().all(|byte| byte.is_ascii_digit() || byte == b'.');
    cell.parse().ok().filter(|_| is_plain)
}

fn decimals(cell: &str) -> usize {
    cell.split_once('.').map_or(0, |(_, decimals)| decimals.len())
}

fn all_alike(texts: &[&str]) -> bool {
    texts.iter().all(|text| *text == texts[0])
}

/// One cell of a table, in each run.
fn merged_cell(cells: &[&str]) -> Option<String> {
    if all_alike(cells) {
        return Some(cells[0].to_string());
    }
    let numbers = cells.iter().map(|cell| number(cell)).collect::<Option<Vec<f64>>>()?;
    Some(median_and_spread(numbers, cells.iter().map(|cell| decimals(cell)).max()?))
}

/// One line, in each run; none where the lines differ in something other than numbers of a table.
fn merged_line(lines: &[&str]) -> Option<String> {
    if all_alike(lines) {
        return Some(lines[0].to_string());
    }
    let rows: Vec<Vec<&str>> = lines.iter().map(|line| line.split('|').map(str::trim).collect()).collect();
    let are_rows = lines.iter().all(|line| line.starts_with('|'));
    if !are_rows || rows.iter().any(|row| row.len() != rows[0].len()) {
        return None;
    }
    let column = |at: usize| rows.iter().map(|row| row[at]).collect::<Vec<&str>>();
    let cells = (0..rows[0].len()).map(|at| merged_cell(&column(at))).collect::<Option<Vec<String>>>()?;
    Some(cells.join(" | ").trim().to_string())
}

fn merged(runs: &[String]) -> Result<String, String> {
    let runs: Vec<Vec<&str>> = runs.iter().map(|run| run.lines().collect()).collect();
    if runs.iter().any(|run| run.len() != runs[0].len()) {
        return Err("the runs have different numbers of lines".to_string());
    }
    let mut text = String::new();
    for at in 0..runs[0].len() {
        let lines: Vec<&str> = runs.iter().map(|run| run[at]).collect();
        let differ = || format!("line {} differs in more than numbers:\n{}", at + 1, lines.join("\n"));
        text += &merged_line(&lines).ok_or_else(differ)?;
        text += "\n";
    }
    Ok(text)
}

fn read(path: String) -> Result<String, String> {
    fs::read_to_string(&path).map_err(|why| format!("{path}: {why}"))
}

fn text_of_runs() -> Result<String, String> {
    let runs = env::args().skip(1).map(read).collect::<Result<Vec<String>, String>>()?;
    if runs.is_empty() {
        return Err("name the files of the runs".to_string());
    }
    merged(&runs)
}

fn main() {
    match text_of_runs() {
        Ok(text) => print!("{text}"),
        Err(why) => {
            eprintln!("spread: {why}");
            exit(1);
        }
    }
}
