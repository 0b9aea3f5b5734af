//! A second reader of the rules' rows, among which a `fix` is refused (02, point 7), to make wrong ones of, for the
//! libraries of `faults.rs`.

use crate::model::{self, Net, Refusal};

/// What is wrong with a reader of rows.
#[derive(Clone, Copy, PartialEq)]
pub enum Slip {
    None,
    // among the refusals of a row
    BeforeTwo,
    BeforeThree,
    BehindFour,
    BehindFive,
    BehindSix,
    BehindEight,
    BehindNine,
    IsThree,
    // which kinds
    EveryOtherKind,
    KindBegins,
    AnyCapitals,
    SpacesBefore,
    // its line
    WithoutLine,
    LineBefore,
    LineBehind,
    LineOfTheHeading,
    PlaceOfTheRow,
    LastOfAll,
    // among the lines
    BeforeOtherRows,
    BehindOtherRows,
    BehindTheSheet,
    FirstRowOnly,
    NotInTheLastRow,
    // read after all
    AsMax,
    AsMin,
    AsBoth,
    LeftOut,
}

/// A sheet read the other way without a slip, so that it is the slip that is noticed.
pub fn read_again(sheet: &[u8]) -> Result<Net, Refusal> {
    read_with(sheet, Slip::None)
}

/// The sheet as far as the heading of the rules, the number that this has, and the lines behind it, each with its line
/// feed; nothing where a line up to there is at fault.
pub fn rows(sheet: &[u8]) -> Option<(&[u8], usize, Vec<&[u8]>)> {
    let feeds = (1..=sheet.len()).filter(|&end| sheet[end - 1] == b'\n' && sheet.len() <= model::SHEET_MOST);
    let empty = |end: usize| model::read(&[&sheet[..end], b"rules,0\n"].concat()).is_ok();
    let end = feeds.take(25).find(|&end| empty(end))?;
    let mut lines = sheet[end..].split_inclusive(|&byte| byte == b'\n');
    let heading = std::str::from_utf8(lines.next()?.strip_prefix(b"rules,")?.strip_suffix(b"\n")?).ok()?;
    let count: usize = heading.parse().ok().filter(|count: &usize| *count <= 64 && count.to_string() == heading)?;
    Some((&sheet[..end], count, lines.collect()))
}

/// Whether a line has this first field, and so many fields.
pub fn is_of(line: &[u8], word: &[u8], count: usize) -> bool {
    let fields: Vec<&[u8]> = line.strip_suffix(b"\n").unwrap_or(line).split(|&byte| byte == b',').collect();
    fields[0] == word && fields.len() == count
}

/// The line with another first field.
pub fn of_kind(line: &[u8], kind: &[u8]) -> Vec<u8> {
    let end = line.iter().position(|&byte| byte == b',' || byte == b'\n').unwrap_or(line.len());
    [kind, &line[end..]].concat()
}

/// The rows read another way than the model's, with one slip or none: the faults of each by itself.
pub fn read_with(sheet: &[u8], slip: Slip) -> Result<Net, Refusal> {
    let Some((head, count, lines)) = rows(sheet) else { return model::read(sheet) };
    let heading = head.iter().filter(|&&byte| byte == b'\n').count() + 1;
    let rows = &lines[..count.min(lines.len())];
    let fixes: Vec<usize> = (0..rows.len()).filter(|&row| is_of(rows[row], b"fix", 5)).collect();
    let faults: Vec<(usize, u8)> = (0..rows.len()).filter_map(|row| fault(head, rows, row, slip)).collect();
    let retired = faults.iter().copied().find(|fault| fault.1 == 22);
    let others = faults.iter().copied().find(|fault| fault.1 != 22);
    let first = match slip {
        Slip::BeforeOtherRows => retired.or(others),
        Slip::BehindOtherRows => others.or(retired),
        Slip::BehindTheSheet => match model::read(&written(head, count, &lines, b"max")) {
            Err(refusal) => return Err(refusal),
            Ok(_) => retired,
        },
        _ => faults.first().copied(),
    };
    let Some((row, number)) = first else { return model::read(&instead(sheet, head, count, &lines, slip)) };
    let line = match slip {
        _ if number != 22 => heading + 1 + row,
        Slip::WithoutLine => 0,
        Slip::LineBefore => heading + row,
        Slip::LineBehind => heading + 2 + row,
        Slip::LineOfTheHeading => heading,
        Slip::PlaceOfTheRow => row + 1,
        Slip::LastOfAll => heading + 1 + fixes.last().copied().unwrap_or(row),
        _ => heading + 1 + row,
    };
    Err(Refusal { number, line })
}

/// The place and the number of a row at fault.
fn fault(head: &[u8], rows: &[&[u8]], row: usize, slip: Slip) -> Option<(usize, u8)> {
    let line = rows[row];
    let fields: Vec<&[u8]> = line.strip_suffix(b"\n").unwrap_or(line).split(|&byte| byte == b',').collect();
    let (kind, five, ended) = (fields[0], fields.len() == 5, line.ends_with(b"\n"));
    let read_as = if kind == b"fix" { of_kind(line, b"max") } else { line.to_vec() };
    let alone = model::read(&[head, b"rules,1\n", &read_as].concat());
    let other = alone.err().map(|refusal| refusal.number);
    let retired = match slip {
        Slip::EveryOtherKind => five && ended && kind != b"max" && kind != b"min",
        Slip::KindBegins => five && ended && kind.starts_with(b"fix"),
        Slip::AnyCapitals => five && ended && kind.eq_ignore_ascii_case(b"fix"),
        Slip::SpacesBefore => five && ended && kind.trim_ascii_start() == b"fix",
        Slip::BeforeTwo => kind == b"fix" && (five || !ended),
        Slip::BeforeThree => kind == b"fix" && ended,
        Slip::FirstRowOnly => five && ended && kind == b"fix" && row == 0,
        Slip::NotInTheLastRow => five && ended && kind == b"fix" && row + 1 < rows.len(),
        Slip::AsMax | Slip::AsMin | Slip::AsBoth => false,
        Slip::LeftOut if kind == b"fix" && five && ended => return None,
        _ => five && ended && kind == b"fix",
    };
    let before = match slip {
        Slip::BehindFour => 4,
        Slip::BehindFive => 5,
        Slip::BehindSix => 6,
        Slip::BehindEight => 8,
        Slip::BehindNine => 9,
        _ => 0,
    };
    match (retired, other) {
        (true, Some(number)) if number <= before => Some((row, number)),
        (true, _) => Some((row, if slip == Slip::IsThree { 3 } else { 22 })),
        (false, number) => number.map(|number| (row, number)),
    }
}

/// What is read in the place of a sheet whose rows have no fault.
fn instead(sheet: &[u8], head: &[u8], count: usize, lines: &[&[u8]], slip: Slip) -> Vec<u8> {
    match slip {
        Slip::AsMin => written(head, count, lines, b"min"),
        Slip::AsMax | Slip::FirstRowOnly | Slip::NotInTheLastRow => written(head, count, lines, b"max"),
        Slip::AsBoth => model::convert(sheet).unwrap_or_else(|_| written(head, count, lines, b"max")),
        Slip::LeftOut => {
            let (rows, behind) = lines.split_at(count.min(lines.len()));
            let left: Vec<&[u8]> = rows.iter().copied().filter(|row| !is_of(row, b"fix", 5)).collect();
            let heading = format!("rules,{}\n", count - (rows.len() - left.len())).into_bytes();
            [head, &heading, &left.concat(), &behind.concat()].concat()
        }
        _ => sheet.to_vec(),
    }
}

/// The sheet with another kind in the place of each `fix`.
pub fn written(head: &[u8], count: usize, lines: &[&[u8]], kind: &[u8]) -> Vec<u8> {
    let mut text = [head, format!("rules,{count}\n").as_bytes()].concat();
    for (place, line) in lines.iter().enumerate() {
        match place < count && is_of(line, b"fix", 5) {
            true => text.extend(of_kind(line, kind)),
            false => text.extend_from_slice(line),
        }
    }
    text
}
