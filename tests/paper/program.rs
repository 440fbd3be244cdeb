//! What the program prints (SCOPE 11).

use super::refusals::WRONG_TEXT;
use super::report::report;
use super::standard::accepted;
use super::ticket::parse;

/// The report of a ticket, or its refusal number and the line that goes with it.
pub fn judge_ticket(text: &[u8]) -> Result<Vec<u8>, (u32, usize)> {
    let ticket = parse(text).map_err(|line| (WRONG_TEXT, line))?;
    // SCOPE 11.2: line is 0 for all but 7
    let (standard, test) = accepted(&ticket).map_err(|number| (number, 0))?;
    Ok(report(&standard, test))
}

/// SCOPE 11.2: a refusal prints one line, refused=7 line=3.
pub fn refusal_line(number: u32, line: usize) -> Vec<u8> {
    format!("refused={number} line={line}\n").into_bytes()
}

/// What the program prints for a ticket so judged.
pub fn shown(judged: &Result<Vec<u8>, (u32, usize)>) -> Vec<u8> {
    match judged {
        Ok(report) => report.clone(),
        Err((number, line)) => refusal_line(*number, *line),
    }
}

/// What the program prints for a text.
pub fn printed(text: &[u8]) -> Vec<u8> {
    shown(&judge_ticket(text))
}
