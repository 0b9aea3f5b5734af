//! The mode `numbers`: each number that a listing, a house form, a converted or a heaviest sheet can have in a place,
//! through the C calls, against the digits that Rust prints. And wrong programs that write numbers by counting off, as
//! 02, point 5 asks, with a slip.

use crate::library::{own, Library};
use crate::model;
use crate::{text_of, Difference};

// ---------------------------------------------------------------- numbers

/// One byte more than the longest sheet.
const ROOM: usize = 4097;
const MINUTES: usize = 65_536;
/// Those of a table for 16 events and 4 signals.
const CELLS: usize = 256;
const HORIZONS: i64 = 10_081;
const LIMITS: i64 = 20_161;
const REACTIONS: i64 = 59;
const RULES: usize = 64;
const EVENTS: usize = 16;
const SIGNALS: usize = 4;
/// All events but the start.
const LABELS: usize = 15;

/// What was compared.
pub fn words() -> String {
    let forms = format!("{LIMITS} limits, {HORIZONS} horizons, {REACTIONS} reactions and every count of a section");
    let counts = "every count of rules before and behind the converter";
    let rings = "every n and as many horizons in heaviest sheets";
    format!("{MINUTES} minutes in listings, {forms} in house forms, {counts}, and {rings}: no difference")
}

/// Listings first, then house forms, converted sheets and heaviest sheets; a difference has its place among all of
/// these texts.
pub fn compare_all(library: &Library) -> Result<(), Difference> {
    let limits: Vec<i64> = (-10_080..=10_080).collect();
    assert_eq!(limits.len() as i64, LIMITS);
    let of_limits = limits.chunks(RULES).map(|limits| form(10_080, [EVENTS, SIGNALS], limits, &[]));
    let counts_of_labels = (1..=LABELS).map(|count| labelled_form(count));
    let of_horizons = (0..HORIZONS).map(|horizon| form(horizon, [1, 0], &[], &[]));
    let of_reactions = (2..2 + REACTIONS).map(|reaction| form(0, [1, 1], &[], &[reaction]));
    let counts_of_rules = (0..=RULES).map(|count| form(0, [EVENTS, 0], &limits[..count], &[]));
    let counts_of_events = (1..=EVENTS).map(|count| form(0, [count, 0], &[], &[]));
    let counts_of_signals = (0..=SIGNALS).map(|count| form(0, [SIGNALS, count], &[], &[]));
    let counts_of_reactions = (0..=SIGNALS).map(|count| form(0, [SIGNALS; 2], &[], &[60; SIGNALS][..count]));
    let of_counts = counts_of_rules.chain(counts_of_events).chain(counts_of_signals).chain(counts_of_reactions);
    let of_counts = of_counts.chain(counts_of_labels);
    let forms = of_limits.chain(of_horizons).chain(of_reactions).chain(of_counts);
    let listings = (0..MINUTES).step_by(CELLS).map(|first| compare_minutes(library, first));
    let counts = (0..=RULES).flat_map(|count| (0..=count.min(RULES - count)).map(move |fixes| (count, fixes)));
    let all = listings.chain(forms.map(|form| compare_form(library, &form)));
    let all = all.chain(counts.map(|(count, fixes)| compare_count(library, count, fixes)));
    let rings = (2..=EVENTS).map(|events| (events, 0)).chain((0..HORIZONS).map(|horizon| (2, horizon)));
    let all = all.chain(rings.map(|(events, horizon)| compare_ring(library, events, horizon)));
    (1..).zip(all).try_for_each(|(place, compared)| compared.map_err(|words| (place, words)))
}

/// A table of minutes from the first on, listed and read back.
fn compare_minutes(library: &Library, first: usize) -> Result<(), String> {
    let sheet = form(0, [EVENTS, SIGNALS], &[], &[]);
    let net = model::read(sheet.as_bytes()).expect("a sheet");
    assert_eq!(net.cells(), CELLS);
    let minutes: Vec<u16> = (first..first + CELLS).map(|minute| minute as u16).collect();
    let table: Vec<u8> = minutes.iter().flat_map(|minute| minute.to_le_bytes()).collect();
    let text = model::listing(sheet.as_bytes(), &net, &minutes);
    compare_text(&text, |out| (library.listing)(sheet.as_bytes(), &table, out))?;
    let mut back = vec![0; table.len()];
    let answer = (library.read_listing)(sheet.as_bytes(), &text, &mut back);
    if answer == own::two_bytes(CELLS as u16) && back == table {
        return Ok(());
    }
    Err(format!("minutes from {first} on are read back with the answer {answer:#x} as {back:?}"))
}

/// A sheet with so many events and signals that is typed as in its house form: max rows, of which no two have the same
/// ends, in their order, and the reactions of the first signals.
fn form(horizon: i64, [events, signals]: [usize; 2], limits: &[i64], reactions: &[i64]) -> String {
    let letter = |place: usize| char::from(b'a' + place as u8);
    let mut text = format!("horizon,{horizon}\nevents,{events}\n");
    text.extend((0..events).map(|event| format!("{}\n", letter(event))));
    text += &format!("signals,{signals}\n");
    text.extend((0..signals).map(|signal| format!("{0},{0}\n", letter(signal))));
    text += &format!("rules,{}\n", limits.len());
    let row = |(place, limit)| format!("max,{},{},{limit},-\n", letter(place / EVENTS), letter(place % EVENTS));
    text.extend(limits.iter().enumerate().map(row));
    if !reactions.is_empty() {
        text += &format!("reactions,{}\n", reactions.len());
        text.extend(reactions.iter().enumerate().map(|(signal, minutes)| format!("{},{minutes}\n", letter(signal))));
    }
    text
}

/// The same with a label for so many events behind the start, which gives the signal, and no reaction.
fn labelled_form(count: usize) -> String {
    let mut text = form(0, [EVENTS, 1], &[], &[]) + &format!("reactions,0\ncases,{count}\n");
    text.extend((1..=count).map(|event| format!("{},a\n", char::from(b'a' + event as u8))));
    text
}

fn compare_form(library: &Library, form: &str) -> Result<(), String> {
    assert_eq!(model::house(form.as_bytes()).as_deref(), Ok(form.as_bytes()));
    compare_text(form.as_bytes(), |out| (library.house)(form.as_bytes(), out))
}

/// So many rows, of which so many are a `fix`, through the converter.
fn compare_count(library: &Library, count: usize, fixes: usize) -> Result<(), String> {
    let head = form(0, [1, 0], &[], &[]).replace("rules,0\n", "");
    let rows = |kind: &str, count: usize| format!("{kind},a,a,0,-\n").repeat(count);
    let both = (rows("max", 1) + &rows("min", 1)).repeat(fixes);
    let former = format!("{head}rules,{count}\n{}{}", rows("fix", fixes), rows("max", count - fixes));
    let text = format!("{head}rules,{}\n{both}{}", count + fixes, rows("max", count - fixes));
    assert_eq!(model::convert(former.as_bytes()).as_deref(), Ok(text.as_bytes()));
    compare_text(text.as_bytes(), |out| (library.convert)(former.as_bytes(), out))
}

fn compare_ring(library: &Library, events: usize, horizon: i64) -> Result<(), String> {
    let text = model::ring_of(events, horizon);
    compare_text(text.as_bytes(), |out| (library.ring)(format!("{events},{horizon}\n").as_bytes(), out))
}

fn compare_text(text: &[u8], call: impl Fn(&mut [u8]) -> u64) -> Result<(), String> {
    let mut out = vec![b'?'; ROOM];
    let answer = call(&mut out);
    let (written, behind) = out.split_at(text.len());
    if answer == own::two_bytes(text.len() as u16) && written == text && behind.iter().all(|&byte| byte == b'?') {
        return Ok(());
    }
    Err(format!("due is\n{}written, with the answer {answer:#x}, is\n{}", text_of(text), text_of(written)))
}

// ---------------------------------------------------------------- Wrong digits

/// Where counting off goes wrong.
#[derive(Clone, Copy, PartialEq)]
pub enum Slip {
    None,
    /// Thousands are counted as hundreds.
    PlaceSkipped,
    /// Behind empty ten-thousands a zero is written.
    LeadingZero,
    /// A weight is not taken off what is just as much: 10 is ten ones.
    TenOnes,
    /// Zeros are left out behind other digits too.
    ZerosLost,
    /// 0 is written as nothing.
    NothingForZero,
    /// A weight is taken off eight times at most.
    NineIsEight,
}

pub const FAULTS: [(&str, Library); 21] = [
    ("listing-place-skipped", Library { listing: |s, t, out| listed(s, t, out, Slip::PlaceSkipped), ..own::LIBRARY }),
    ("listing-leading-zero", Library { listing: |s, t, out| listed(s, t, out, Slip::LeadingZero), ..own::LIBRARY }),
    ("listing-ten-ones", Library { listing: |s, t, out| listed(s, t, out, Slip::TenOnes), ..own::LIBRARY }),
    ("listing-zeros-lost", Library { listing: |s, t, out| listed(s, t, out, Slip::ZerosLost), ..own::LIBRARY }),
    ("listing-nothing-for-0", Library { listing: |s, t, out| listed(s, t, out, Slip::NothingForZero), ..own::LIBRARY }),
    ("listing-nine-is-eight", Library { listing: |s, t, out| listed(s, t, out, Slip::NineIsEight), ..own::LIBRARY }),
    ("house-place-skipped", Library { house: |s, out| housed(s, out, Slip::PlaceSkipped), ..own::LIBRARY }),
    ("house-leading-zero", Library { house: |s, out| housed(s, out, Slip::LeadingZero), ..own::LIBRARY }),
    ("house-ten-ones", Library { house: |s, out| housed(s, out, Slip::TenOnes), ..own::LIBRARY }),
    ("house-zeros-lost", Library { house: |s, out| housed(s, out, Slip::ZerosLost), ..own::LIBRARY }),
    ("house-nothing-for-0", Library { house: |s, out| housed(s, out, Slip::NothingForZero), ..own::LIBRARY }),
    ("house-nine-is-eight", Library { house: |s, out| housed(s, out, Slip::NineIsEight), ..own::LIBRARY }),
    ("convert-leading-zero", Library { convert: |s, out| converted(s, out, Slip::LeadingZero), ..own::LIBRARY }),
    ("convert-ten-ones", Library { convert: |s, out| converted(s, out, Slip::TenOnes), ..own::LIBRARY }),
    ("convert-nothing-for-0", Library { convert: |s, out| converted(s, out, Slip::NothingForZero), ..own::LIBRARY }),
    ("ring-place-skipped", Library { ring: |line, out| ringed(line, out, Slip::PlaceSkipped), ..own::LIBRARY }),
    ("ring-leading-zero", Library { ring: |line, out| ringed(line, out, Slip::LeadingZero), ..own::LIBRARY }),
    ("ring-ten-ones", Library { ring: |line, out| ringed(line, out, Slip::TenOnes), ..own::LIBRARY }),
    ("ring-zeros-lost", Library { ring: |line, out| ringed(line, out, Slip::ZerosLost), ..own::LIBRARY }),
    ("ring-nothing-for-0", Library { ring: |line, out| ringed(line, out, Slip::NothingForZero), ..own::LIBRARY }),
    ("ring-nine-is-eight", Library { ring: |line, out| ringed(line, out, Slip::NineIsEight), ..own::LIBRARY }),
];

/// The same without a slip, so that it is the slip that is noticed.
pub const RIGHT: Library = Library {
    listing: |s, t, out| listed(s, t, out, Slip::None),
    house: |s, out| housed(s, out, Slip::None),
    convert: |s, out| converted(s, out, Slip::None),
    ring: |line, out| ringed(line, out, Slip::None),
    ..own::LIBRARY
};

fn listed(sheet: &[u8], table: &[u8], out: &mut [u8], slip: Slip) -> u64 {
    let text = own::handed(sheet, table).map(|(net, minutes)| model::listing(sheet, &net, &minutes));
    own::write_text(text.map(|text| respelled(&text, slip)), out)
}

fn housed(sheet: &[u8], out: &mut [u8], slip: Slip) -> u64 {
    own::write_text(model::house(sheet).map(|text| respelled(&text, slip)), out)
}

/// Here the count alone is written anew: it is the only number of a converted sheet that is not copied.
fn converted(sheet: &[u8], out: &mut [u8], slip: Slip) -> u64 {
    own::write_text(model::convert(sheet).map(|text| recounted(&text, slip)), out)
}

fn ringed(line: &[u8], out: &mut [u8], slip: Slip) -> u64 {
    own::write_text(model::ring(line).map(|text| respelled(&text, slip)), out)
}

/// An accepted sheet with the count of its rules written anew.
pub fn recounted(sheet: &[u8], slip: Slip) -> Vec<u8> {
    let net = model::read(sheet).expect("a sheet");
    let spelt = |(place, line): (usize, &[u8])| match place == 3 + net.events.len() + net.signals.len() {
        true => respelled(line, slip),
        false => line.to_vec(),
    };
    sheet.split_inclusive(|&byte| byte == b'\n').enumerate().flat_map(spelt).collect()
}

/// A text with each field that is a number written anew. No name and no label is one.
pub fn respelled(text: &[u8], slip: Slip) -> Vec<u8> {
    let mut out = Vec::new();
    for field in text.split_inclusive(|&byte| byte == b',' || byte == b'\n') {
        let (digits, end) = field.split_at(field.len() - 1);
        let (minus, digits) = digits.split_at(usize::from(digits.starts_with(b"-")));
        out.extend_from_slice(minus);
        match std::str::from_utf8(digits).ok().and_then(|digits| digits.parse().ok()) {
            Some(number) => out.extend(spelled(number, slip)),
            None => out.extend_from_slice(digits),
        }
        out.extend_from_slice(end);
    }
    out
}

/// "By counting off ten-thousands, thousands, hundreds and tens".
fn spelled(number: u16, slip: Slip) -> Vec<u8> {
    let weights = if slip == Slip::PlaceSkipped { [10_000, 100, 100, 10] } else { [10_000, 1_000, 100, 10] };
    let most = if slip == Slip::NineIsEight { 8 } else { u8::MAX };
    let (mut digits, mut left) = (vec![], number);
    for weight in weights {
        let mut digit = 0;
        while digit < most && (weight < left || weight == left && slip != Slip::TenOnes) {
            left -= weight;
            digit += 1;
        }
        let left_out = match slip {
            Slip::LeadingZero => weight == 10_000,
            Slip::ZerosLost => true,
            _ => digits.is_empty(),
        };
        if digit > 0 || !left_out {
            digits.push(b'0' + digit);
        }
    }
    if number > 0 || slip != Slip::NothingForZero {
        digits.push(b'0'.wrapping_add(left as u8));
    }
    digits
}
