//! Damaged tickets, and texts that were never tickets.

use crate::paper::ticket;
use crate::random::Random;
use crate::records::Tickets;
use crate::{bytes, forms, lines};

type Damage = fn(&mut Random, &mut Vec<u8>);

/// Every kind of edit. All but the first need a text that is not empty.
pub const DAMAGES: [(&str, Damage); 24] = [
    ("a byte inserted", bytes::inserted),
    ("a likely byte inserted", bytes::likely_inserted),
    ("a byte replaced", bytes::replaced),
    ("a likely byte replaced", bytes::likely_replaced),
    ("a bit turned", bytes::bit_turned),
    ("a byte cut", bytes::byte_cut),
    ("bytes cut", bytes::bytes_cut),
    ("the end cut", bytes::end_cut),
    ("bytes doubled", bytes::doubled),
    ("neighbours swapped", bytes::neighbours_swapped),
    ("bytes swapped", bytes::bytes_swapped),
    ("a line moved", lines::line_moved),
    ("a line missing", lines::line_missing),
    ("a line repeated", lines::line_repeated),
    ("a line's value in another", lines::value_in_another),
    ("lines merged", lines::lines_merged),
    ("the last LF removed", lines::last_lf_removed),
    ("an LF added", lines::lf_added),
    ("a CR added", lines::cr_added),
    ("every line ended by CR LF", lines::all_cr_lf),
    ("a number in a wrong form", forms::number_in_a_wrong_form),
    ("a blank doubled or changed", forms::blank_changed),
    ("padded", bytes::padded),
    ("emptied", bytes::emptied),
];

/// Bytes that stand in tickets, or that a lax reader lets pass.
pub const LIKELY: &[u8] =
    b"0123456789.-= \n\r\t\0+eE,:;/_()'\"#abcdefiltwxyzABCDEILMXYZ\x7f\x80\xa0\xff";

impl Random {
    pub fn place(&mut self, text: &[u8]) -> usize {
        self.below(text.len() as u64) as usize
    }
}

/// The places of this byte.
pub fn places_of(text: &[u8], byte: u8) -> Vec<usize> {
    (0..text.len())
        .filter(|&place| text[place] == byte)
        .collect()
}

pub fn damaged(tickets: &mut Tickets) {
    let draft = tickets.random.ticket();
    let mut text = tickets.random.text_of(&draft);
    for _ in 0..tickets.random.pick(&[1, 1, 2, 3]) {
        // the last two tell little: one is slow to try, the other always the same
        let few = if tickets.random.one_in(3) { 0 } else { 2 };
        let any = tickets.random.below(DAMAGES.len() as u64 - few) as usize;
        let (kind, damage) = DAMAGES[if text.is_empty() { 0 } else { any }];
        damage(&mut tickets.random, &mut text);
        tickets.seen.note(kind, true);
    }
    let is_right = ticket::parse(&text).is_ok();
    tickets.seen.note("damaged, but right", is_right);
    tickets.put(&text);
}

/// Texts that were never tickets, and tickets whose length comes right when its upper bits are lost.
pub fn others(tickets: &mut Tickets) {
    for step in 0..3_000 {
        let length = tickets.random.below(1 + step % 200);
        let bytes: Vec<u8> = (0..length).map(|_| tickets.random.next() as u8).collect();
        tickets.put(&bytes);
        let likely: Vec<u8> = bytes.iter().map(|_| tickets.random.pick(LIKELY)).collect();
        tickets.put(&likely);
    }
    for _ in 0..120 {
        let draft = tickets.random.ticket();
        let mut text = tickets.random.text_of(&draft);
        text.resize(65_536 + text.len(), b'\n');
        tickets.put(&text);
    }
}
