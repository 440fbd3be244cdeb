//! Lines moved, lost, repeated or merged, and their ends changed.

use crate::damage::places_of;
use crate::random::Random;

/// The lines, each with its LF.
fn lines_of(text: &[u8]) -> Vec<Vec<u8>> {
    text.split_inclusive(|&byte| byte == b'\n')
        .map(<[u8]>::to_vec)
        .collect()
}

pub fn line_moved(random: &mut Random, text: &mut Vec<u8>) {
    let mut lines = lines_of(text);
    let [from, to] = [0; 2].map(|_| random.below(lines.len() as u64) as usize);
    let line = lines.remove(from);
    lines.insert(to, line);
    *text = lines.concat();
}

pub fn line_missing(random: &mut Random, text: &mut Vec<u8>) {
    let mut lines = lines_of(text);
    lines.remove(random.below(lines.len() as u64) as usize);
    *text = lines.concat();
}

pub fn line_repeated(random: &mut Random, text: &mut Vec<u8>) {
    let mut lines = lines_of(text);
    let [from, any] = [0; 2].map(|_| random.below(lines.len() as u64) as usize);
    let to = random.pick(&[from, any, lines.len()]);
    lines.insert(to, lines[from].clone());
    *text = lines.concat();
}

/// What stands after the = of one line is put after that of another.
pub fn value_in_another(random: &mut Random, text: &mut Vec<u8>) {
    let mut lines = lines_of(text);
    let [from, to] = [0; 2].map(|_| random.below(lines.len() as u64) as usize);
    let after = |line: &[u8]| {
        line.iter()
            .position(|&byte| byte == b'=')
            .map_or(0, |at| at + 1)
    };
    let value = lines[from][after(&lines[from])..].to_vec();
    let place = after(&lines[to]);
    lines[to].truncate(place);
    lines[to].extend(value);
    *text = lines.concat();
}

/// An LF is lost, or something else has come in its place.
pub fn lines_merged(random: &mut Random, text: &mut Vec<u8>) {
    let places = places_of(text, b'\n');
    if places.is_empty() {
        return;
    }
    let place = random.pick(&places);
    match random.below(5) {
        0 => text[place] = b' ',
        1 => text[place] = b'\r',
        2 => text[place] = b'\0',
        _ => {
            text.remove(place);
        }
    }
}

pub fn last_lf_removed(_: &mut Random, text: &mut Vec<u8>) {
    if text.last() == Some(&b'\n') {
        text.pop();
    }
}

pub fn lf_added(random: &mut Random, text: &mut Vec<u8>) {
    let mut places = places_of(text, b'\n');
    places.extend([0, text.len(), random.place(text)]);
    text.insert(random.pick(&places), b'\n');
}

pub fn cr_added(random: &mut Random, text: &mut Vec<u8>) {
    let mut places = places_of(text, b'\n');
    places.push(text.len());
    text.insert(random.pick(&places), b'\r');
}

pub fn all_cr_lf(_: &mut Random, text: &mut Vec<u8>) {
    let lines = lines_of(text)
        .into_iter()
        .map(|line| match line.strip_suffix(b"\n") {
            None => line,
            Some(start) => [start, b"\r\n"].concat(),
        });
    *text = lines.flatten().collect();
}
