//! Bytes put in, changed, cut or swapped, anywhere in a text.

use crate::damage::LIKELY;
use crate::random::Random;

pub fn inserted(random: &mut Random, text: &mut Vec<u8>) {
    let place = random.below(text.len() as u64 + 1) as usize;
    text.insert(place, random.next() as u8);
}

pub fn likely_inserted(random: &mut Random, text: &mut Vec<u8>) {
    let place = random.below(text.len() as u64 + 1) as usize;
    text.insert(place, random.pick(LIKELY));
}

pub fn replaced(random: &mut Random, text: &mut Vec<u8>) {
    let place = random.place(text);
    text[place] = random.next() as u8;
}

pub fn likely_replaced(random: &mut Random, text: &mut Vec<u8>) {
    let place = random.place(text);
    text[place] = random.pick(LIKELY);
}

/// One of the eight makes a small letter of a capital.
pub fn bit_turned(random: &mut Random, text: &mut Vec<u8>) {
    let place = random.place(text);
    text[place] ^= 1 << random.below(8);
}

pub fn byte_cut(random: &mut Random, text: &mut Vec<u8>) {
    let place = random.place(text);
    text.remove(place);
}

pub fn bytes_cut(random: &mut Random, text: &mut Vec<u8>) {
    let from = random.place(text);
    let count = 1 + random.place(&text[from..]);
    text.drain(from..from + count);
}

pub fn end_cut(random: &mut Random, text: &mut Vec<u8>) {
    let place = random.place(text);
    text.truncate(place);
}

pub fn doubled(random: &mut Random, text: &mut Vec<u8>) {
    let from = random.place(text);
    let left = (text.len() - from) as u64;
    let most = random.pick(&[1, 1, 8, left]).min(left);
    let copy = text[from..from + 1 + random.below(most) as usize].to_vec();
    text.splice(from..from, copy);
}

pub fn neighbours_swapped(random: &mut Random, text: &mut Vec<u8>) {
    let place = random.place(text);
    let next = (place + 1) % text.len();
    text.swap(place, next);
}

pub fn bytes_swapped(random: &mut Random, text: &mut Vec<u8>) {
    let places = [random.place(text), random.place(text)];
    text.swap(places[0], places[1]);
}

/// To 4,096 bytes or a few more or less, with one byte over and over, at the end or anywhere.
pub fn padded(random: &mut Random, text: &mut Vec<u8>) {
    let any = 4_000 + random.below(1_000) as usize;
    let length = random.pick(&[4_095, 4_096, 4_096, 4_097, 4_097, 4_098, any]);
    let place = random.place(text);
    let place = random.pick(&[place, text.len(), text.len()]);
    let byte = random.pick(b"\n\n 0x\0\r");
    let missing = length.max(text.len()) - text.len();
    text.splice(place..place, std::iter::repeat(byte).take(missing));
}

pub fn emptied(_: &mut Random, text: &mut Vec<u8>) {
    text.clear();
}
