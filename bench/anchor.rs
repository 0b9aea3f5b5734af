//! A solver to measure against: an unproved Rust solver, written apart from the library, of the same job and with the
//! same rounds. Taken over as it was, but for its layout, its names, the reading of reactions, which its rounds had
//! from the first, and the kind `fix`: it knows `max` and `min` alone (02, point 7), so that a rule asks once. A sheet
//! is taken to be in order: the reader panics where it is not.

pub struct Rule {
    /// 0 `max`, 1 `min`.
    pub kind: u8,
    pub from: usize,
    pub to: usize,
    pub limit: i32,
    /// The weights of the label's true letters, and of its false ones.
    pub positive: u8,
    pub negative: u8,
}

pub struct Sheet {
    pub horizon: i32,
    pub events: usize,
    pub signals: usize,
    pub givers: [usize; 4],
    /// Minutes until a signal can be acted on: 1 where the sheet has no line for it.
    pub reactions: [i32; 4],
    pub rules: Vec<Rule>,
}

pub struct Answer {
    pub found: bool,
    pub rounds: u64,
    pub table: Vec<u16>,
}

// ---------------------------------------------------------------- Reading

fn count_of(line: &str, word: &str) -> i32 {
    let (first, count) = line.split_once(',').unwrap();
    assert_eq!(first, word);
    count.parse().unwrap()
}

fn label_of(field: &str, letters: &[u8]) -> (u8, u8) {
    let (mut positive, mut negative, mut negated) = (0, 0, false);
    for &b in field.as_bytes() {
        if b == b'!' {
            negated = true;
            continue;
        }
        let weight = 1 << letters.iter().position(|&letter| letter == b).unwrap();
        if negated {
            negative |= weight;
        } else {
            positive |= weight;
        }
        negated = false;
    }
    (positive, negative)
}

impl Sheet {
    pub fn parse(text: &str) -> Sheet {
        let mut lines = text.lines();
        let horizon = count_of(lines.next().unwrap(), "horizon");
        let events = count_of(lines.next().unwrap(), "events") as usize;
        let names: Vec<&str> = lines.by_ref().take(events).collect();
        let event = |name: &str| names.iter().position(|&known| known == name).unwrap();
        let signals = count_of(lines.next().unwrap(), "signals") as usize;
        let mut givers = [0; 4];
        let mut letters = vec![];
        for giver in &mut givers[..signals] {
            let (letter, name) = lines.next().unwrap().split_once(',').unwrap();
            letters.push(letter.as_bytes()[0]);
            *giver = event(name);
        }
        let mut rules = vec![];
        for _ in 0..count_of(lines.next().unwrap(), "rules") {
            let fields: Vec<&str> = lines.next().unwrap().split(',').collect();
            let kind = match fields[0] {
                "max" => 0,
                "min" => 1,
                other => panic!("no kind: {other}"),
            };
            let (positive, negative) = if fields[4] == "-" { (0, 0) } else { label_of(fields[4], &letters) };
            let (from, to) = (event(fields[1]), event(fields[2]));
            rules.push(Rule { kind, from, to, limit: fields[3].parse().unwrap(), positive, negative });
        }
        let mut reactions = [1; 4];
        if let Some(heading) = lines.next() {
            for _ in 0..count_of(heading, "reactions") {
                let (letter, minutes) = lines.next().unwrap().split_once(',').unwrap();
                let signal = letters.iter().position(|&known| known == letter.as_bytes()[0]).unwrap();
                reactions[signal] = minutes.parse().unwrap();
            }
        }
        Sheet { horizon, events, signals, givers, reactions, rules }
    }
}

// ---------------------------------------------------------------- Solving

/// The target is at least the source and the weight, in the cases of the mask.
struct Ask {
    target: u8,
    source: u8,
    weight: i16,
    mask: u16,
}

fn agrees(s: usize, rule: &Rule) -> bool {
    s & rule.positive as usize == rule.positive as usize && s & rule.negative as usize == 0
}

fn asks(sheet: &Sheet) -> Vec<Ask> {
    let cases = 1usize << sheet.signals;
    let mut asks = Vec::with_capacity(64);
    for rule in &sheet.rules {
        let mut mask = 0u16;
        for s in 0..cases {
            if agrees(s, rule) {
                mask |= 1 << s;
            }
        }
        if rule.kind == 0 {
            asks.push(Ask { target: rule.from as u8, source: rule.to as u8, weight: -rule.limit as i16, mask });
        } else {
            asks.push(Ask { target: rule.to as u8, source: rule.from as u8, weight: rule.limit as i16, mask });
        }
    }
    asks
}

/// Per case a list of asks; per case and difference the first minute at which it is heard; rows of sixteen events, one a case.
pub fn compiled(sheet: &Sheet) -> Answer {
    let (events, cases) = (sheet.events, 1usize << sheet.signals);
    let all = asks(sheet);
    let mut lists = [[(0u8, 0u8, 0i16); 64]; 16];
    let mut lengths = [0usize; 16];
    for ask in &all {
        for s in 0..cases {
            if ask.mask >> s & 1 == 1 {
                lists[s][lengths[s]] = (ask.target, ask.source, ask.weight);
                lengths[s] += 1;
            }
        }
    }
    let mut table = [[0i16; 16]; 16];
    let mut next = table;
    let mut rounds = 0;
    let horizon = sheet.horizon as i16;
    loop {
        rounds += 1;
        let mut rose = false;
        let mut over = false;
        for s in 0..cases {
            let row = &table[s];
            let mut out = *row;
            for &(target, source, weight) in &lists[s][..lengths[s]] {
                let bound = row[(source & 15) as usize] + weight;
                let target = (target & 15) as usize;
                if bound > out[target] {
                    out[target] = bound;
                }
            }
            let mut first = [0i16; 16];
            first[0] = i16::MAX;
            for i in 0..sheet.signals {
                let heard = row[sheet.givers[i]] + sheet.reactions[i] as i16;
                for d in 0..1 << i {
                    let known = first[d];
                    first[d + (1 << i)] = if known < heard { known } else { heard };
                }
            }
            for d in 1..cases {
                let known = first[d];
                let other = &table[s ^ d];
                for u in 0..16 {
                    let bound = if other[u] < known { other[u] } else { known };
                    if bound > out[u] {
                        out[u] = bound;
                    }
                }
            }
            for u in 0..events {
                rose |= out[u] != row[u];
                over |= out[u] > horizon;
            }
            over |= out[0] > 0;
            next[s] = out;
        }
        if over {
            return Answer { found: false, rounds, table: vec![] };
        }
        if !rose {
            let mut minutes = vec![];
            for s in 0..cases {
                for u in 0..events {
                    minutes.push(table[s][u] as u16);
                }
            }
            return Answer { found: true, rounds, table: minutes };
        }
        std::mem::swap(&mut table, &mut next);
    }
}
