//! The plain loops: each round takes, for every cell, all rules, all other cases and all signals, straight from the definitions.
//! The reader is that of equal.rs; the answers are the same.

use crate::equal::{by_bytes, read, Constraint, Kind, Network, Refusal, BLANK, EVENTS, SCENARIOS};

/// Minutes by case and event.
type Table = [[i32; EVENTS]; SCENARIOS];

/// An event happens where its label holds.
fn happens(network: &Network, s: usize, u: usize) -> bool {
    network.labels()[u].covers(s)
}

/// The minute from which event `u` of case `s` has to be on by one rule, from the table before the round. A rule covers
/// a case only if both its events happen there; `u` does.
fn by_rule(network: &Network, table: &Table, c: &Constraint, s: usize, u: usize) -> i32 {
    let (from, to) = (usize::from(c.from), usize::from(c.to));
    let mut least = 0;
    if c.label.covers(s) {
        if u == from && happens(network, s, to) && matches!(c.kind, Kind::Max) {
            least = least.max(table[s][to] - c.limit);
        }
        if u == to && happens(network, s, from) && matches!(c.kind, Kind::Min) {
            least = least.max(table[s][from] + c.limit);
        }
    }
    least
}

/// The minute from which event `u` of case `s` has to be on by its label: it comes no sooner than each signal there
/// plus that signal's reaction.
fn by_label(network: &Network, table: &Table, s: usize, u: usize) -> i32 {
    let mut least = 0;
    for (p, (&event, &reaction)) in network.observations().iter().zip(network.reactions()).enumerate() {
        if network.labels()[u].mentions(p) {
            least = least.max(table[s][usize::from(event)] + i32::from(reaction));
        }
    }
    least
}

/// The minute from which event `u` of case `s` has to be on by the hyperarc to case `r`: that of `u` in `r`, or the
/// earliest in `s` at which a signal counts on which the two differ. Only events that happen in both are compared, and
/// only signals count that are given in `s`.
fn by_case(network: &Network, table: &Table, s: usize, r: usize, u: usize) -> i32 {
    if !happens(network, r, u) {
        return 0;
    }
    let mut least = table[r][u];
    for (p, (&event, &reaction)) in network.observations().iter().zip(network.reactions()).enumerate() {
        let event = usize::from(event);
        if (s ^ r) >> p & 1 == 1 && happens(network, s, event) {
            least = least.min(table[s][event] + i32::from(reaction));
        }
    }
    least
}

#[inline(never)]
fn round(network: &Network, table: &Table) -> Table {
    let mut new = [[0; EVENTS]; SCENARIOS];
    for s in 0..network.scenarios() {
        for u in 0..network.events() {
            if !happens(network, s, u) {
                continue;
            }
            let mut least = table[s][u].max(by_label(network, table, s, u));
            for c in network.constraints() {
                least = least.max(by_rule(network, table, c, s, u));
            }
            for r in 0..network.scenarios() {
                if r != s {
                    least = least.max(by_case(network, table, s, r, u));
                }
            }
            new[s][u] = least;
        }
    }
    new
}

/// Whether a minute is over the horizon, or a start is not 0.
fn passes(network: &Network, table: &Table) -> bool {
    let rows = &table[..network.scenarios()];
    rows.iter().any(|row| row[0] > 0 || row[..network.events()].iter().any(|&minute| minute > i32::from(network.horizon)))
}

#[inline(never)]
pub fn solve_counted(sheet: &[u8], table: &mut [u16]) -> (Result<usize, Refusal>, u32) {
    let network = match read(sheet) {
        Ok(network) => network,
        Err(refusal) => return (Err(refusal), 0),
    };
    let cells = network.cells();
    if table.len() < cells {
        return (Err((12, 0)), 0);
    }
    let mut minutes = [[0; EVENTS]; SCENARIOS];
    let mut count = 0;
    loop {
        let new = round(&network, &minutes);
        count += 1;
        if passes(&network, &new) {
            return (Err((13, 0)), count);
        }
        if new == minutes {
            break;
        }
        minutes = new;
    }
    for (i, out) in table[..cells].iter_mut().enumerate() {
        let (s, u) = (i / network.events(), i % network.events());
        *out = if happens(&network, s, u) { minutes[s][u] as u16 } else { BLANK };
    }
    (Ok(cells), count)
}

pub fn solve_bytes(sheet: &[u8], bytes: &mut [u8]) -> u64 {
    by_bytes(solve_counted, sheet, bytes)
}
