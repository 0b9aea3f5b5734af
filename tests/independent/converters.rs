//! A second converter of sheets with `fix` rows (02, point 7), to make wrong ones of, for libraries and for programs.
//! It has its refusals from the reader of today, told `max` for each `fix`, and not from the former rules.

use crate::model::{self, Refusal};
use crate::retired::{self, is_of, of_kind};

/// What is wrong with a converter.
#[derive(Clone, Copy, PartialEq)]
pub enum Slip {
    None,
    // the rows of a `fix`
    MinLeftOut,
    MaxLeftOut,
    BothMax,
    BothMin,
    MinFirst,
    MinNegated,
    BothNegated,
    AsMaxRows,
    EndsSwapped,
    LabelOrdered,
    LabelLost,
    ZeroOnce,
    SelfOnce,
    DoublesDropped,
    MinAtTheEnd,
    BothAtTheEnd,
    EachFixReplaced,
    // which rows
    NothingDone,
    OnlyFirst,
    OnlyLast,
    FirstMissed,
    LastMissed,
    SecondOfTwoMissed,
    // the count
    CountKept,
    CountOneMore,
    CountDoubled,
    CountOfFixes,
    CountOfOneDigit,
    CountOfTwoDigits,
    // the other bytes
    CasesConverted,
    NamesConverted,
    OthersTurned,
    OthersOrdered,
    ReactionsDropped,
    ReactionsOf1Dropped,
    CasesDropped,
    DashesDropped,
    // 17
    Refused64,
    Passed65,
    NeverRefused,
    Refused64Rules,
    FixesOnly,
    FixesOnce,
    SeventeenWithLine,
    SeventeenAtTheHeading,
    SeventeenIs5,
    SeventeenIs12,
    SeventeenFirst,
    // refusals of the sheet
    TwentyTwo,
    TwentyTwoOnTheRow,
    TwentyTwoBefore,
    FixIsThree,
    LineLost,
    LineBefore,
    LineBehind,
    LineAsConverted,
    RefusedAsItIs,
}

/// The same without a slip, so that it is the slip that is noticed.
pub fn convert_again(sheet: &[u8]) -> Result<Vec<u8>, Refusal> {
    convert_with(sheet, Slip::None)
}

/// A sheet converted another way than the model's, with one slip or none: row by row, each cut into its fields.
pub fn convert_with(sheet: &[u8], slip: Slip) -> Result<Vec<u8>, Refusal> {
    let Some((head, count, lines)) = retired::rows(sheet) else {
        return misread(model::read(sheet).expect_err("a line at fault"), sheet, &[], slip);
    };
    let heading = head.iter().filter(|&&byte| byte == b'\n').count() + 1;
    let (rows, behind) = lines.split_at(count.min(lines.len()));
    let fixes: Vec<usize> = (0..rows.len()).filter(|&row| is_of(rows[row], b"fix", 5)).collect();
    let retired = Refusal { number: 22, line: heading + 1 + fixes.first().copied().unwrap_or(0) };
    let crowded = crowded(rows, count, &fixes, heading, slip);
    match (slip, model::read(&retired::written(head, count, &lines, b"max"))) {
        (Slip::SeventeenFirst, _) if crowded.is_some() => return Err(Refusal { number: 17, line: 0 }),
        (Slip::TwentyTwo, _) => drop(model::read(sheet)?),
        (Slip::FixIsThree, _) if !fixes.is_empty() => return Err(Refusal { number: 3, ..retired }),
        (Slip::TwentyTwoBefore, Err(other)) if !fixes.is_empty() && other.line > retired.line => return Err(retired),
        (_, Err(refusal)) => {
            let lines: Vec<usize> = fixes.iter().map(|row| heading + 1 + row).collect();
            return misread(refusal, sheet, &lines, slip);
        }
        _ => {}
    }
    if let Some(refusal) = crowded {
        return Err(refusal);
    }
    let letters = letters_of(head);
    let (mut text, mut last): (Vec<Vec<u8>>, Vec<Vec<u8>>) = (vec![], vec![]);
    for (row, line) in rows.iter().enumerate() {
        if !chosen(row, &fixes, slip) {
            text.push(if fixes.contains(&row) { line.to_vec() } else { other_row(line, &letters, slip) });
            continue;
        }
        let mut halves = halves(line, &letters, slip);
        match slip {
            Slip::MinAtTheEnd => last.extend(halves.pop()),
            Slip::BothAtTheEnd => last.append(&mut halves),
            Slip::DoublesDropped => halves.retain(|half| !text.contains(half)),
            _ => {}
        }
        text.extend(halves);
    }
    text.extend(last);
    let heading = format!("rules,{}\n", count_of(count, fixes.len(), text.len(), slip)).into_bytes();
    Ok([head_of(head, slip), heading, text.concat(), behind_of(behind, slip)].concat())
}

/// The refusal of a sheet whose `fix` rows have these lines.
fn misread(refusal: Refusal, sheet: &[u8], fixes: &[usize], slip: Slip) -> Result<Vec<u8>, Refusal> {
    let before = fixes.iter().filter(|&&line| line < refusal.line).count();
    Err(match slip {
        Slip::RefusedAsItIs => return Ok(sheet.to_vec()),
        Slip::TwentyTwoOnTheRow if fixes.contains(&refusal.line) => Refusal { number: 22, ..refusal },
        Slip::LineLost => Refusal { line: 0, ..refusal },
        Slip::LineBefore => Refusal { line: refusal.line.saturating_sub(1), ..refusal },
        Slip::LineBehind => Refusal { line: refusal.line + usize::from(refusal.line > 0), ..refusal },
        Slip::LineAsConverted => Refusal { line: refusal.line + before, ..refusal },
        _ => refusal,
    })
}

/// 17, where more than 64 rows would result.
fn crowded(rows: &[&[u8]], count: usize, fixes: &[usize], heading: usize, slip: Slip) -> Option<Refusal> {
    let (results, most) = match slip {
        Slip::Refused64 => (count + fixes.len(), 63),
        Slip::Passed65 => (count + fixes.len(), 65),
        Slip::NeverRefused => (0, 64),
        Slip::Refused64Rules => (count + fixes.len() + usize::from(count == 64), 64),
        Slip::FixesOnly => (2 * fixes.len(), 64),
        Slip::FixesOnce => (count, 64),
        _ => (count + fixes.len(), 64),
    };
    if results <= most {
        return None;
    }
    let results_by = |row: usize| row + 1 + fixes.iter().filter(|&&fix| fix <= row).count();
    let row = (0..rows.len()).find(|&row| results_by(row) > 64).unwrap_or(0);
    Some(match slip {
        Slip::SeventeenWithLine => Refusal { number: 17, line: heading + 1 + row },
        Slip::SeventeenAtTheHeading => Refusal { number: 17, line: heading },
        Slip::SeventeenIs5 => Refusal { number: 5, line: heading },
        Slip::SeventeenIs12 => Refusal { number: 12, line: 0 },
        _ => Refusal { number: 17, line: 0 },
    })
}

/// Whether a row is converted.
fn chosen(row: usize, fixes: &[usize], slip: Slip) -> bool {
    let Some(place) = fixes.iter().position(|&fix| fix == row) else { return false };
    // of rows that stand one behind the other, how many come before this one
    let behind = (0..place).rev().take_while(|&other| fixes[other] + place - other == row).count();
    match slip {
        Slip::NothingDone => false,
        Slip::OnlyFirst => place == 0,
        Slip::OnlyLast => place + 1 == fixes.len(),
        Slip::FirstMissed => place != 0,
        Slip::LastMissed => place + 1 != fixes.len(),
        Slip::SecondOfTwoMissed => behind % 2 == 0,
        _ => true,
    }
}

/// The rows in the place of a `fix`.
fn halves(line: &[u8], letters: &[u8], slip: Slip) -> Vec<Vec<u8>> {
    let (max, min) = (of_kind(line, b"max"), of_kind(line, b"min"));
    let fields: Vec<&[u8]> = line[..line.len() - 1].split(|&byte| byte == b',').collect();
    let row = |kind: &[u8], from: &[u8], to: &[u8], limit: &[u8], label: &[u8]| {
        [[kind, from, to, limit, label].join(&b","[..]), b"\n".to_vec()].concat()
    };
    let [_, from, to, limit, label] = fields[..] else { unreachable!("five fields") };
    let minus = negated(limit);
    let relabelled = |label: &[u8]| vec![row(b"max", from, to, limit, label), row(b"min", from, to, limit, label)];
    match slip {
        Slip::MinLeftOut => vec![max],
        Slip::MaxLeftOut => vec![min],
        Slip::BothMax => vec![max.clone(), max],
        Slip::BothMin => vec![min.clone(), min],
        Slip::MinFirst => vec![min, max],
        Slip::MinNegated => vec![max, row(b"min", from, to, &minus, label)],
        Slip::BothNegated => vec![row(b"max", from, to, &minus, label), row(b"min", from, to, &minus, label)],
        Slip::AsMaxRows => vec![max, row(b"max", to, from, &minus, label)],
        Slip::EndsSwapped => vec![max, row(b"min", to, from, limit, label)],
        Slip::LabelOrdered => relabelled(&ordered(label, letters)),
        Slip::LabelLost => relabelled(b"-"),
        Slip::ZeroOnce if limit == b"0" => vec![max],
        Slip::SelfOnce if from == to => vec![max],
        Slip::EachFixReplaced => [b"max", b"min"].map(|kind| replaced(line, kind)).to_vec(),
        _ => vec![max, min],
    }
}

/// A row that is no `fix`.
fn other_row(line: &[u8], letters: &[u8], slip: Slip) -> Vec<u8> {
    let fields: Vec<&[u8]> = line[..line.len() - 1].split(|&byte| byte == b',').collect();
    let [kind, from, to, limit, label] = fields[..] else { return line.to_vec() };
    let fields = match slip {
        Slip::OthersTurned if kind == b"min" => [b"max", to, from, &negated(limit), label].join(&b","[..]),
        Slip::OthersOrdered => [kind, from, to, limit, &ordered(label, letters)].join(&b","[..]),
        _ => return line.to_vec(),
    };
    [fields, b"\n".to_vec()].concat()
}

fn negated(limit: &[u8]) -> Vec<u8> {
    match limit {
        b"0" => b"0".to_vec(),
        [b'-', digits @ ..] => digits.to_vec(),
        digits => [b"-", digits].concat(),
    }
}

/// A row with another word for each `fix` in it.
fn replaced(line: &[u8], word: &[u8]) -> Vec<u8> {
    let fields: Vec<&[u8]> = line.split(|&byte| byte == b',').collect();
    fields.into_iter().map(|field| if field == b"fix" { word } else { field }).collect::<Vec<&[u8]>>().join(&b","[..])
}

/// A label with its letters in this order.
fn ordered(label: &[u8], letters: &[u8]) -> Vec<u8> {
    let mut signed: Vec<&[u8]> = vec![];
    let mut rest = label;
    while !rest.is_empty() {
        let (letter, behind) = rest.split_at(if rest[0] == b'!' { 2 } else { 1 });
        signed.push(letter);
        rest = behind;
    }
    signed.sort_by_key(|letter| letters.iter().position(|own| letter.last() == Some(own)));
    signed.concat()
}

/// The letters of the signals in their order, of a sheet as far as the heading of its rules.
fn letters_of(head: &[u8]) -> Vec<u8> {
    let lines = head.split(|&byte| byte == b'\n').skip_while(|line| !is_of(line, b"signals", 2)).skip(1);
    lines.filter_map(|line| line.first().copied()).collect()
}

fn count_of(count: usize, fixes: usize, rows: usize, slip: Slip) -> String {
    match slip {
        Slip::CountKept => count.to_string(),
        Slip::CountOneMore if fixes > 0 => (count + 1).to_string(),
        Slip::CountDoubled => (2 * count).to_string(),
        Slip::CountOfFixes if fixes > 0 => (2 * fixes).to_string(),
        Slip::CountOfOneDigit => (rows % 10).to_string(),
        Slip::CountOfTwoDigits => format!("{rows:02}"),
        _ => rows.to_string(),
    }
}

fn head_of(head: &[u8], slip: Slip) -> Vec<u8> {
    let name = |line: &[u8]| match line {
        b"fix\n" if slip == Slip::NamesConverted => b"max\n".to_vec(),
        line => line.to_vec(),
    };
    head.split_inclusive(|&byte| byte == b'\n').flat_map(name).collect()
}

/// What stands behind the rules.
fn behind_of(lines: &[&[u8]], slip: Slip) -> Vec<u8> {
    let cases = lines.iter().position(|line| line.starts_with(b"cases,")).unwrap_or(lines.len());
    let (reactions, labels) = lines.split_at(cases);
    match slip {
        Slip::ReactionsDropped => vec![],
        Slip::CasesDropped => reactions.concat(),
        Slip::ReactionsOf1Dropped => [without(reactions, b",1\n"), labels.concat()].concat(),
        Slip::DashesDropped => [reactions.concat(), without(labels, b",-\n")].concat(),
        Slip::CasesConverted => {
            let halves = |line: &&[u8]| match line.strip_prefix(b"fix,") {
                Some(label) => [b"max,", label, b"min,", label].concat(),
                None => line.to_vec(),
            };
            lines.iter().flat_map(halves).collect()
        }
        _ => lines.concat(),
    }
}

/// A section without the lines that end so.
fn without(section: &[&[u8]], end: &[u8]) -> Vec<u8> {
    let Some((heading, lines)) = section.split_first() else { return vec![] };
    let kept: Vec<&[u8]> = lines.iter().copied().filter(|line| !line.ends_with(end)).collect();
    let word = heading.split(|&byte| byte == b',').next().unwrap_or_default();
    [word, format!(",{}\n", kept.len()).as_bytes(), &kept.concat()].concat()
}
