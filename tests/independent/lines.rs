//! Lines `n,H` from a seed, valid and damaged, for the writer of the heaviest sheets.

use crate::gen::{self, Rng};
use crate::model::{EVENTS_MOST, MINUTES_MOST, RING_LEAST};

/// Well-formed numbers beyond the range of n, among them such as fall into it again where bits are lost.
const EVENTS_BEYOND: [&str; 14] = [
    "1", "1", "1", "17", "17", "17", "0", "-1", "-4", "65540", "4294967300", "18446744073709551620", "60", "10080",
];

/// The same for H.
const HORIZONS_BEYOND: [&str; 12] = [
    "10081", "10081", "-1", "-60", "-10080", "65596", "4294967356", "18446744073709551676", "100000", "10090", "99999",
    "20160",
];

const ILL_FORMED: [&str; 18] = [
    "010", "04", "060", "00", "-0", "-0", "+5", "+4", "", "-", "--4", " 4", "4 ", "4\r", "0x4", "4.0", "1e1", "-04",
];

/// What may stand behind the line's feed.
const BEHIND: [&str; 14] = [
    "\n", "\n", "\n", "\n\n", " ", "x", "\0", "\r\n", "4,60\n", "4,60", "signals,0\n", "horizon,60\n", ",", "2,0\n",
];

/// Other lines than a number, a comma and a number.
const OTHER_LINES: [&str; 18] = [
    "", "4", "60", "4,60,", "4,60,1", ",4,60", "4,,60", ",", ",,", "4;60", "4 60", "4, 60", "n,H", "horizon,60",
    "events,4", "4,60,-", "1", "17,60,0",
];

/// Mostly a valid line.
pub fn line(rng: &mut Rng) -> Vec<u8> {
    let fields = [events(rng).to_string(), horizon(rng).to_string()];
    match rng.below(100) {
        0..=57 => joined(&fields),
        58..=67 => with_odd_fields(rng, fields),
        68..=73 => odd_both_ways(rng),
        74..=79 => [rng.pick(&OTHER_LINES), "\n"].concat().into_bytes(),
        80..=87 => with_bytes_behind(rng, &fields),
        88..=91 => with_another_end(rng, &fields),
        92..=96 => of_a_length(rng, fields),
        _ => with_a_byte_changed(rng, &fields),
    }
}

fn joined(fields: &[String; 2]) -> Vec<u8> {
    format!("{},{}\n", fields[0], fields[1]).into_bytes()
}

/// Both ends often.
fn events(rng: &mut Rng) -> i64 {
    match rng.below(10) {
        0..=1 => RING_LEAST,
        2 => 3,
        3..=4 => EVENTS_MOST,
        _ => rng.between(RING_LEAST, EVENTS_MOST),
    }
}

/// Both ends, and numbers about where digits are added.
fn horizon(rng: &mut Rng) -> i64 {
    match rng.below(10) {
        0 => 0,
        1 => MINUTES_MOST,
        2..=4 => rng.pick(&[1, 9, 10, 11, 59, 60, 99, 100, 101, 999, 1_000, 1_001, 9_999, 10_000, 10_079]),
        _ => rng.between(0, MINUTES_MOST),
    }
}

/// One number, or both, ill-formed or beyond its range.
fn with_odd_fields(rng: &mut Rng, mut fields: [String; 2]) -> Vec<u8> {
    let both = rng.chance(20);
    let one = rng.below(2);
    for place in (0..2).filter(|&place| both || place == one) {
        fields[place] = match rng.below(5) {
            0..=1 => rng.pick(&ILL_FORMED).to_string(),
            2 => String::from_utf8_lossy(&gen::odd_number(rng)).into_owned(),
            _ => rng.pick(if place == 0 { &EVENTS_BEYOND } else { &HORIZONS_BEYOND }).to_string(),
        };
    }
    joined(&fields)
}

/// One number beyond its range and the other ill-formed: the lowest number on the line decides, not the first.
fn odd_both_ways(rng: &mut Rng) -> Vec<u8> {
    let ill = rng.pick(&ILL_FORMED).to_string();
    joined(&match rng.chance(50) {
        true => [rng.pick(&EVENTS_BEYOND).to_string(), ill],
        false => [ill, rng.pick(&HORIZONS_BEYOND).to_string()],
    })
}

/// Bytes behind a line that is in order or, at times, is not.
fn with_bytes_behind(rng: &mut Rng, fields: &[String; 2]) -> Vec<u8> {
    let line = match rng.below(10) {
        0 => odd_both_ways(rng),
        1 => with_odd_fields(rng, fields.clone()),
        2 => [rng.pick(&OTHER_LINES), "\n"].concat().into_bytes(),
        _ => joined(fields),
    };
    [&line, rng.pick(&BEHIND).as_bytes()].concat()
}

/// No line feed, or something before it, or nothing at all.
fn with_another_end(rng: &mut Rng, fields: &[String; 2]) -> Vec<u8> {
    let mut line = joined(fields);
    line.pop();
    match rng.below(7) {
        0..=1 => {}
        2 => line.extend(b"\r\n"),
        3 => line.push(b'\r'),
        4 => line.push(0),
        5 => line.truncate(rng.below(line.len())),
        _ => line.clear(),
    }
    line
}

/// Lengths at the edge of refusal 1: padded in a number, behind the line or before its feed; or without any feed.
fn of_a_length(rng: &mut Rng, mut fields: [String; 2]) -> Vec<u8> {
    let length = rng.pick(&[4_095, 4_096, 4_096, 4_097, 4_097, 4_098, 5_000, 10_000]);
    let missing = length - joined(&fields).len();
    let mut line = joined(&fields);
    match rng.below(6) {
        0..=1 => {
            let place = rng.below(2);
            fields[place] += &rng.pick(&["0", "1", "9"]).repeat(missing);
            line = joined(&fields);
        }
        2 => line.splice(0..0, std::iter::repeat(b'0').take(missing)).for_each(drop),
        3 => line.extend(std::iter::repeat(rng.pick(b"\nx4")).take(missing)),
        4 => line = [b"4,60".repeat(length)[..length - 1].to_vec(), b"\n".to_vec()].concat(),
        _ => line = b"1".repeat(length),
    }
    line
}

fn with_a_byte_changed(rng: &mut Rng, fields: &[String; 2]) -> Vec<u8> {
    let mut line = joined(fields);
    gen::change_byte(rng, &mut line);
    line
}
