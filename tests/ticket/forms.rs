//! Numbers and blanks in another form than a ticket's.

use crate::damage::places_of;
use crate::random::Random;

/// A number with too many digits or decimals, or none, or with what is no part of a number here.
pub fn number_in_a_wrong_form(random: &mut Random, text: &mut Vec<u8>) {
    let begins = |&place: &usize| matches!(text[place - 1], b'=' | b' ' | b'-');
    let starts: Vec<usize> = (1..text.len()).filter(begins).collect();
    if starts.is_empty() {
        return;
    }
    let start = random.pick(&starts);
    let is_part = |byte: &u8| byte.is_ascii_digit() || *byte == b'.';
    let length = text[start..]
        .iter()
        .take_while(|&byte| is_part(byte))
        .count();
    let number = String::from_utf8_lossy(&text[start..start + length]).into_owned();
    let (whole, decimals) = number.split_once('.').unwrap_or((&number, ""));
    let (digit, tail) = (random.below(10), random.pick(&["0", "5", "00", "000000"]));
    let wrong = match random.below(16) {
        0 => format!("0{number}"),
        1 => format!("00{number}"),
        2 => format!("{digit}{number}"),
        3 => format!("{whole}.{decimals:0<3}{digit}"),
        4 => format!("{whole}.{decimals:0<6}{tail}"),
        5 => format!("{number}{tail}"),
        6 => format!("{whole}."),
        7 => format!(".{decimals:0<1}"),
        8 => format!("{whole}.{decimals}."),
        9 => format!("{whole}..{decimals}"),
        10 => format!("+{number}"),
        11 => format!("-{number}"),
        12 => format!("{number}e{digit}"),
        13 => format!("{whole},{decimals}"),
        14 => random
            .pick(&["nan", "inf", "", "-", ".", "0x1", "1/2", "1_0", "1 000"])
            .to_string(),
        _ => format!("{whole}.-{decimals}"),
    };
    text.splice(start..start + length, wrong.into_bytes());
}

pub fn blank_changed(random: &mut Random, text: &mut Vec<u8>) {
    let mut places = places_of(text, b' ');
    places.extend(places_of(text, b'='));
    if places.is_empty() {
        return;
    }
    let place = random.pick(&places);
    match random.below(4) {
        0 => text.insert(place, b' '),
        1 => text.insert(place + 1, b' '),
        2 => text[place] = b'\t',
        _ => text[place] = random.pick(b",=-. "),
    }
}
