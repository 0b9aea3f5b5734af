//! Memory lent to a library, between guarding bytes, and whether it holds what it should.

use crate::gen::Rng;

/// Bytes lent to the library, with guarding bytes before and behind them.
#[derive(Clone)]
pub struct Lent {
    all: Vec<u8>,
    pub length: usize,
}

const GUARD: usize = 24;

impl Lent {
    /// Lends these bytes between guarding bytes drawn from `guards`.
    fn new(rng: &mut Rng, guards: &[u8], bytes: &[u8]) -> Self {
        let mut guard = || -> Vec<u8> { (0..GUARD).map(|_| rng.pick(guards)).collect() };
        Lent { all: [&guard()[..], bytes, &guard()].concat(), length: bytes.len() }
    }

    pub fn slice(&self) -> &[u8] {
        &self.all[GUARD..GUARD + self.length]
    }

    pub fn slice_mut(&mut self) -> &mut [u8] {
        &mut self.all[GUARD..GUARD + self.length]
    }

    /// The same with these bytes written over the first ones.
    pub fn with(&self, bytes: &[u8]) -> Self {
        let mut written = self.clone();
        written.slice_mut()[..bytes.len()].copy_from_slice(bytes);
        written
    }

    /// Every byte, the guards too, is as in `right`; or words for the first that is not.
    pub fn is(&self, right: &Lent) -> Result<(), String> {
        let Some(place) = (0..right.all.len()).find(|&place| right.all[place] != self.all[place]) else { return Ok(()) };
        let (at, length, found, wanted) = (place as i64 - GUARD as i64, right.length, self.all[place], right.all[place]);
        Err(format!("at byte {at} of {length} (from 0, negative before it) {found} and not {wanted}"))
    }
}

/// Around a sheet, or a text of signals heard, stand bytes that would change its reading, such as a line feed where the last line has none.
pub fn lend_text(rng: &mut Rng, text: &[u8]) -> Lent {
    let guards: &[u8] = rng.pick(&[&b"\n"[..], b"0123456789", b"abcp!-", b",\n0ap"]);
    Lent::new(rng, guards, text)
}

/// So many bytes to write into, with any contents.
pub fn lend_room(rng: &mut Rng, length: usize) -> Lent {
    let bytes: Vec<u8> = (0..length).map(|_| rng.next() as u8).collect();
    lend_bytes(rng, &bytes)
}

pub fn lend_bytes(rng: &mut Rng, bytes: &[u8]) -> Lent {
    let guards: Vec<u8> = (0..=255).collect();
    Lent::new(rng, &guards, bytes)
}
