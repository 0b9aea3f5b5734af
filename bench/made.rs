//! Sheets that are made anew: heavy ones by their pattern, ordinary ones by a generator.

use crate::anchor::{compiled, Rule, Sheet};

/// The horizon of the heavy sheets: the latest there is.
const LATEST: i32 = 10_080;

fn name(u: usize) -> char {
    (b'a' + u as u8) as char
}

fn letter(p: usize) -> char {
    ['p', 'q', 'r', 's'][p]
}

fn label_text(rule: &Rule) -> String {
    let mut text = String::new();
    for p in 0..4 {
        if rule.positive >> p & 1 == 1 {
            text.push(letter(p));
        } else if rule.negative >> p & 1 == 1 {
            text.push('!');
            text.push(letter(p));
        }
    }
    if text.is_empty() {
        text.push('-');
    }
    text
}

pub fn text_of(sheet: &Sheet) -> String {
    let mut text = format!("horizon,{}\nevents,{}\n", sheet.horizon, sheet.events);
    for u in 0..sheet.events {
        text += &format!("{}\n", name(u));
    }
    text += &format!("signals,{}\n", sheet.signals);
    for p in 0..sheet.signals {
        text += &format!("{},{}\n", letter(p), name(sheet.givers[p]));
    }
    text += &format!("rules,{}\n", sheet.rules.len());
    for rule in &sheet.rules {
        let kind = ["max", "min"][rule.kind as usize];
        text += &format!("{kind},{},{},{},{}\n", name(rule.from), name(rule.to), rule.limit, label_text(rule));
    }
    let slow: Vec<usize> = (0..sheet.signals).filter(|&p| sheet.reactions[p] != 1).collect();
    if !slow.is_empty() {
        text += &format!("reactions,{}\n", slow.len());
        slow.iter().for_each(|&p| text += &format!("{},{}\n", letter(p), sheet.reactions[p]));
    }
    text
}

// ---------------------------------------------------------------- Heavy sheets

fn heavy(events: usize, givers: &[usize], rules: Vec<Rule>) -> Sheet {
    let mut all = [0; 4];
    all[..givers.len()].copy_from_slice(givers);
    Sheet { horizon: LATEST, events, signals: givers.len(), givers: all, reactions: [1; 4], rules }
}

fn min(from: usize, to: usize, limit: i32, (positive, negative): (u8, u8)) -> Rule {
    Rule { kind: 1, from, to, limit, positive, negative }
}

const ALWAYS: (u8, u8) = (0, 0);

/// Request 8's ring: of 0 from b on to each next event, then of 1 from the last back to b.
fn ring(events: usize) -> Sheet {
    let mut rules: Vec<Rule> = (1..events - 1).map(|u| min(u, u + 1, 0, ALWAYS)).collect();
    rules.push(min(events - 1, 1, 1, ALWAYS));
    heavy(events, &[], rules)
}

/// A cycle of `length` events from `first` on that gains a minute each time, whose first `switched` rules ask in turn for the falsehood
/// and for the truth of p, besides what `label` asks. Between two such rules the minute has to pass to another case, which takes a
/// round: a time takes `length + switched` rounds for one turn if `switched` is even, one less if it is odd.
fn alternating(rules: &mut Vec<Rule>, first: usize, length: usize, switched: usize, label: (u8, u8)) {
    for i in 0..length {
        let (to, gain) = if i + 1 < length { (first + i + 1, 0) } else { (first, 1) };
        let (positive, negative) = match i {
            _ if i >= switched => (0, 0),
            _ if i % 2 == 0 => (0, 1),
            _ => (1, 0),
        };
        rules.push(min(first + i, to, gain, (label.0 | positive, label.1 | negative)));
    }
}

/// p is given late, by the last event; until then the cases go together, and both climb. Once it can be heard they rest: a table.
fn alternating_ring(events: usize) -> Sheet {
    let mut rules = vec![min(0, events - 1, LATEST - 2, ALWAYS)];
    alternating(&mut rules, 1, events - 2, events - 2, ALWAYS);
    heavy(events, &[events - 1], rules)
}

/// A cycle of all events but the givers, who are heard at once, so that each case goes alone. In case 1 a shorter way round has the
/// second length, in case 2 the third, and so on. Refusal 13.
fn coprime(lengths: &[usize]) -> Sheet {
    let signals = 16 - lengths[0];
    let mut rules: Vec<Rule> = (signals..15).map(|u| min(u, u + 1, 0, ALWAYS)).collect();
    rules.push(min(15, signals, 1, ALWAYS));
    for (s, length) in (1u8..).zip(&lengths[1..]) {
        rules.push(min(signals + length - 1, signals, 1, (s, !s & ((1 << signals) - 1))));
    }
    heavy(16, &(0..signals).collect::<Vec<_>>(), rules)
}

/// Alternating cycles of 25, 24, 23 and 22 rounds, one for each truth of q and r, who are heard at once; p as above. A table.
fn coprime_table() -> Sheet {
    let mut rules = vec![min(0, 15, LATEST - 2, ALWAYS)];
    for (length, switched, label) in [(13, 12, (6, 0)), (12, 12, (2, 4)), (13, 10, (4, 2)), (12, 10, (0, 6))] {
        alternating(&mut rules, 2, length, switched, label);
    }
    heavy(16, &[15, 0, 1], rules)
}

/// With their names.
pub fn heavy_sheets() -> Vec<(String, Sheet)> {
    let mut sheets = vec![];
    for events in [16, 12, 7] {
        sheets.push((format!("ring-{events}"), ring(events)));
    }
    sheets.push(("alternating-10".into(), alternating_ring(10)));
    for lengths in [&[13, 12][..], &[13, 12, 11], &[14, 13, 11], &[12, 11, 7, 5]] {
        let words: Vec<String> = lengths.iter().map(|length| length.to_string()).collect();
        sheets.push((format!("coprime-{}", words.join("-")), coprime(lengths)));
    }
    sheets.push(("coprime-table".into(), coprime_table()));
    sheets
}

// ---------------------------------------------------------------- Ordinary sheets

/// A xorshift generator.
struct Random(u64);

impl Random {
    fn next(&mut self) -> u64 {
        self.0 ^= self.0 << 13;
        self.0 ^= self.0 >> 7;
        self.0 ^= self.0 << 17;
        self.0.wrapping_mul(0x2545_F491_4F6C_DD1D) >> 11
    }

    fn below(&mut self, n: usize) -> usize {
        (self.next() % n as u64) as usize
    }

    fn within(&mut self, least: i32, most: i32) -> i32 {
        least + self.below((most - least + 1) as usize) as i32
    }
}

fn random_label(random: &mut Random, signals: usize) -> (u8, u8) {
    let (mut positive, mut negative) = (0, 0);
    for p in 0..signals {
        match random.below(3) {
            0 => positive |= 1 << p,
            1 => negative |= 1 << p,
            _ => {}
        }
    }
    (positive, negative)
}

/// As workflows are: rules lead to later events, most are least durations, some deadlines, some conditional; the first ones reach
/// every event.
fn ordinary(random: &mut Random, events: usize, signals: usize, rules: usize) -> Sheet {
    let horizon = [60, 240, 1440, 10080][random.below(4)];
    let mut free: Vec<usize> = (1..events).collect();
    let mut givers = [0; 4];
    for giver in &mut givers[..signals] {
        *giver = free.remove(random.below(free.len().min(6)));
    }
    let unit = (horizon / (2 * events as i32)).max(1);
    let mut list = vec![];
    for j in 0..rules {
        let reaching = j + 1 < events;
        let (from, to) = if reaching {
            (if j == 0 { 0 } else { random.below(j + 1) }, j + 1)
        } else {
            let from = random.below(events - 1);
            (from, from + 1 + random.below(events - 1 - from))
        };
        let (positive, negative) = if random.below(3) == 0 { random_label(random, signals) } else { ALWAYS };
        // a `min` or a `max`, or both for an exact duration
        let (kinds, limit) = match random.below(10) {
            x if reaching || x < 5 => (1..2, random.within(1, unit)),
            x if x < 9 => (0..1, random.within(unit * 3, unit * 8)),
            _ => (0..2, random.within(unit, unit * 2)),
        };
        list.extend(kinds.map(|kind| Rule { kind, from, to, limit, positive, negative }));
    }
    Sheet { horizon, events, signals, givers, reactions: [1; 4], rules: list }
}

/// 14 for each count of signals and 8, 12 and 16 events: 11 with a table and 3 without.
pub fn ordinary_sheets() -> Vec<(String, Sheet)> {
    let mut sheets = vec![];
    for signals in 0..5 {
        for events in [8, 12, 16] {
            let mut random = Random(900 + 10 * signals as u64 + events as u64);
            let (mut found, mut refused) = (0, 0);
            while found + refused < 14 {
                let sheet = ordinary(&mut random, events, signals, 2 * events);
                let (count, most) = if compiled(&sheet).found { (&mut found, 11) } else { (&mut refused, 3) };
                if *count == most {
                    continue;
                }
                *count += 1;
                sheets.push((format!("n{events}-k{signals}-{:02}", found + refused), sheet));
            }
        }
    }
    sheets
}
