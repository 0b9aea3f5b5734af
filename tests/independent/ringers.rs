//! A second writer of the heaviest sheets, which finds all faults of a line and then says which one
//! counts; and wrong ones like it, for libraries and for programs.

use crate::model::Refusal;
use std::num::IntErrorKind;

/// What is wrong with a writer.
#[derive(Clone, Copy, PartialEq)]
pub enum Slip {
    None,
    // 1
    Refused4096,
    Accepted4097,
    LengthNotAsked,
    LongOnLine1,
    // 2
    LastFeedOptional,
    CrAccepted,
    NulEnds,
    TwoOnLine0,
    TwoOnLine2,
    // 3
    MoreFieldsIgnored,
    LastCommaIgnored,
    SpacesSeparate,
    SecondMissingIsZero,
    EmptyIsTwo,
    // 4 and 5
    FieldsInTurn,
    SecondFieldFirst,
    FiveBeforeFour,
    FourIsFive,
    FiveIsFour,
    LeadingZero,
    MinusZero,
    Plus,
    Spaces,
    EmptyIsZero,
    MinusIgnored,
    NegativeIsFour,
    LongIsFour,
    WrapsAt16Bits,
    WrapsAt32Bits,
    WrapsAt64Bits,
    Accepts1,
    Accepts17,
    Refuses2,
    Refuses16,
    AcceptsHorizon10081,
    RefusesHorizon10080,
    RefusesHorizon0,
    FieldsExchanged,
    // 10
    BehindIgnored,
    FeedBehindIgnored,
    TenOnLine1,
    TenOnLine0,
    TenBeforeTheLine,
    TenBeforeNumbers,
    BehindIsThree,
    BehindIsTwo,
    // the sheet
    OneOnTheFirstRow,
    OneOnEachRow,
    NoOne,
    TwoAtTheEnd,
    NamesFromB,
    NamesNumbered,
    RowFromTheStart,
    LastRowTwice,
    FirstRowLeftOut,
    LastRowLeftOut,
    TwoRowsForTwo,
    BackToTheStart,
    BackToTheNext,
    LastRowFirst,
    Backwards,
    AsMax,
    NegatedMax,
    CountOfEvents,
    EventsOfRules,
    HorizonOneMore,
    HorizonOf60,
    SignalsLeftOut,
    ReactionsWritten,
    LabelsLeftOut,
    LastFeedLost,
}

/// The right one.
pub fn ring_again(line: &[u8]) -> Result<Vec<u8>, Refusal> {
    ring_with(line, Slip::None)
}

/// The sheet for a line, or the refusal of a writer with a slip.
pub fn ring_with(line: &[u8], slip: Slip) -> Result<Vec<u8>, Refusal> {
    let most = match slip {
        Slip::Refused4096 => 4_095,
        Slip::Accepted4097 => 4_097,
        Slip::LengthNotAsked => usize::MAX,
        _ => 4_096,
    };
    if line.len() > most {
        return Err(Refusal { number: 1, line: usize::from(slip == Slip::LongOnLine1) });
    }
    let (first, behind) = parted(line, slip).ok_or(Refusal {
        number: 2,
        line: match slip {
            Slip::TwoOnLine0 => 0,
            Slip::TwoOnLine2 => 2,
            _ => 1,
        },
    })?;
    let ten = ten(&behind, slip);
    if slip == Slip::TenBeforeTheLine {
        ten.map_or(Ok(()), Err)?;
    }
    let fields = fields(&first, slip).map_err(|number| match (slip, ten) {
        (Slip::TenBeforeNumbers, Some(ten)) if number > 3 => ten,
        _ => Refusal { number, line: 1 },
    })?;
    ten.map_or(Ok(()), Err)?;
    let [events, horizon] = fields;
    Ok(sheet(events as usize, horizon, slip).into_bytes())
}

/// The first line, without its feed, and what is behind that.
fn parted(line: &[u8], slip: Slip) -> Option<(Vec<u8>, Vec<u8>)> {
    let line = match slip {
        Slip::NulEnds => line.split(|&byte| byte == 0).next().expect("a part"),
        _ => line,
    };
    let ends = |byte: &u8| *byte == b'\n' || slip == Slip::NulEnds && *byte == 0;
    let (mut first, behind) = match line.iter().position(ends) {
        Some(end) => (line[..end].to_vec(), line[end + 1..].to_vec()),
        None if slip == Slip::LastFeedOptional && !line.is_empty() => (line.to_vec(), vec![]),
        None if slip == Slip::NulEnds && !line.is_empty() => (line.to_vec(), vec![]),
        None => return None,
    };
    if slip == Slip::CrAccepted && first.ends_with(b"\r") {
        first.pop();
    }
    Some((first, behind))
}

/// What bytes behind the line are refused with.
fn ten(behind: &[u8], slip: Slip) -> Option<Refusal> {
    let refused = |number: u8, line: usize| Some(Refusal { number, line });
    match (slip, behind) {
        (_, []) | (Slip::BehindIgnored, _) | (Slip::FeedBehindIgnored, b"\n") => None,
        (Slip::TenOnLine1, _) => refused(10, 1),
        (Slip::TenOnLine0, _) => refused(10, 0),
        (Slip::BehindIsThree, _) if behind.contains(&b'\n') => refused(3, 2),
        (Slip::BehindIsTwo, _) if !behind.contains(&b'\n') => refused(2, 2),
        _ => refused(10, 2),
    }
}

/// Both numbers, or the number that the line is refused with.
fn fields(line: &[u8], slip: Slip) -> Result<[i64; 2], u8> {
    let separates = |byte: &u8| *byte == b',' || slip == Slip::SpacesSeparate && *byte == b' ';
    let mut fields: Vec<&[u8]> = line.split(separates).collect();
    match (slip, fields.len()) {
        (Slip::MoreFieldsIgnored, 3..) => fields.truncate(2),
        (Slip::LastCommaIgnored, 3) if fields[2].is_empty() => fields.truncate(2),
        (Slip::SecondMissingIsZero, 1) => fields.push(b"0"),
        (Slip::EmptyIsTwo, 1) if line.is_empty() => return Err(2),
        (Slip::FieldsExchanged, 2) => fields.swap(0, 1),
        _ => {}
    }
    if fields.len() != 2 {
        return Err(3);
    }
    let [least, most] = match slip {
        Slip::Accepts1 => [1, 16],
        Slip::Accepts17 => [2, 17],
        Slip::Refuses2 => [3, 16],
        Slip::Refuses16 => [2, 15],
        _ => [2, 16],
    };
    let [lowest, highest] = match slip {
        Slip::AcceptsHorizon10081 => [0, 10_081],
        Slip::RefusesHorizon10080 => [0, 10_079],
        Slip::RefusesHorizon0 => [1, 10_080],
        _ => [0, 10_080],
    };
    match (value(fields[0], least, most, slip), value(fields[1], lowest, highest, slip)) {
        (Ok(events), Ok(horizon)) => Ok([events, horizon]),
        (Err(one), Err(two)) => Err(match slip {
            Slip::FieldsInTurn => one,
            Slip::SecondFieldFirst => two,
            Slip::FiveBeforeFour => one.max(two),
            _ => one.min(two),
        }),
        (one, two) => Err(one.err().or(two.err()).expect("a fault")),
    }
}

/// A number in its range, or 4 or 5.
fn value(field: &[u8], least: i64, most: i64, slip: Slip) -> Result<i64, u8> {
    let (ill_formed, beyond) = match slip {
        Slip::FourIsFive => (5, 5),
        Slip::FiveIsFour => (4, 4),
        _ => (4, 5),
    };
    let text = std::str::from_utf8(field).map_err(|_| ill_formed)?;
    let value = number(text, slip).ok_or(ill_formed)?;
    match value {
        _ if slip == Slip::NegativeIsFour && value < 0 => Err(4),
        _ if slip == Slip::LongIsFour && text.len() > 5 => Err(4),
        _ if least <= value && value <= most => Ok(value),
        _ => Err(beyond),
    }
}

/// A text that is the number's own, printed; or the largest number where it is too long to be told.
fn number(text: &str, slip: Slip) -> Option<i64> {
    let text = match slip {
        Slip::Spaces => text.trim_matches(' '),
        Slip::EmptyIsZero if text.is_empty() => "0",
        Slip::MinusIgnored if text.starts_with('-') && text != "-0" => &text[1..],
        _ => text,
    };
    let bits = match slip {
        Slip::WrapsAt16Bits => 16,
        Slip::WrapsAt32Bits => 32,
        Slip::WrapsAt64Bits => 64,
        _ => 0,
    };
    let digits = !text.is_empty() && text.bytes().all(|byte| byte.is_ascii_digit());
    if bits > 0 && digits && !text.starts_with('0') {
        let whole = text.bytes().fold(0u64, |v, digit| v.wrapping_mul(10).wrapping_add(u64::from(digit - b'0')));
        return Some((whole & u64::MAX >> (64 - bits)).try_into().unwrap_or(i64::MAX));
    }
    match text.parse::<i64>() {
        Ok(value) if value.to_string() == text || spelled_otherwise(text, slip) => Some(value),
        Ok(_) => None,
        Err(error) => match error.kind() {
            IntErrorKind::PosOverflow if !text.starts_with(['0', '+']) => Some(i64::MAX),
            IntErrorKind::NegOverflow if !text.starts_with("-0") => Some(i64::MIN),
            _ => None,
        },
    }
}

/// Another spelling of a number, which a writer with this slip takes too.
fn spelled_otherwise(text: &str, slip: Slip) -> bool {
    match slip {
        Slip::LeadingZero => text.starts_with('0'),
        Slip::MinusZero => text == "-0",
        Slip::Plus => text.starts_with('+') && !text.starts_with("+0"),
        _ => false,
    }
}

/// The rows in turn, from one event to another by so much.
fn rows(events: usize, slip: Slip) -> Vec<(usize, usize, i64)> {
    let last = match slip {
        Slip::BackToTheStart => (events - 1, 0, 1),
        Slip::BackToTheNext => (events - 1, 2.min(events - 1), 1),
        Slip::TwoAtTheEnd => (events - 1, 1, 2),
        Slip::NoOne => (events - 1, 1, 0),
        _ => (events - 1, 1, 1),
    };
    let mut rows: Vec<(usize, usize, i64)> = (2..events).map(|to| (to - 1, to, 0)).collect();
    rows.push(last);
    match slip {
        Slip::OneOnTheFirstRow => {
            rows[events - 2].2 = 0;
            rows[0].2 = 1;
        }
        Slip::OneOnEachRow => rows.iter_mut().for_each(|row| row.2 = 1),
        Slip::RowFromTheStart => rows.insert(0, (0, 1, 0)),
        Slip::LastRowTwice => rows.push(last),
        Slip::FirstRowLeftOut => drop(rows.remove(0)),
        Slip::LastRowLeftOut => drop(rows.pop()),
        Slip::TwoRowsForTwo if events == 2 => rows.insert(0, (1, 1, 0)),
        Slip::LastRowFirst => rows.rotate_right(1),
        Slip::Backwards => rows.iter_mut().for_each(|row| *row = (row.1, row.0, row.2)),
        _ => {}
    }
    rows
}

fn sheet(events: usize, horizon: i64, slip: Slip) -> String {
    let horizon = match slip {
        Slip::HorizonOneMore => horizon + 1,
        Slip::HorizonOf60 => 60,
        _ => horizon,
    };
    let name = |event: usize| match slip {
        Slip::NamesFromB => char::from(b'b' + event as u8).to_string(),
        Slip::NamesNumbered => format!("e{event}"),
        _ => "abcdefghijklmnopq"[event..=event].to_string(),
    };
    let row = |&(from, to, limit): &(usize, usize, i64)| match slip {
        Slip::AsMax => format!("max,{},{},{limit},-", name(from), name(to)),
        Slip::NegatedMax => format!("max,{},{},{},-", name(to), name(from), -limit),
        Slip::LabelsLeftOut => format!("min,{},{},{limit}", name(from), name(to)),
        _ => format!("min,{},{},{limit},-", name(from), name(to)),
    };
    let rows: Vec<String> = rows(events, slip).iter().map(row).collect();
    let count = if slip == Slip::EventsOfRules { events - 1 } else { events };
    let mut lines = vec![format!("horizon,{horizon}"), format!("events,{count}")];
    lines.extend((0..events).map(name));
    if slip != Slip::SignalsLeftOut {
        lines.push("signals,0".to_string());
    }
    lines.push(format!("rules,{}", if slip == Slip::CountOfEvents { events } else { rows.len() }));
    lines.extend(rows);
    if slip == Slip::ReactionsWritten {
        lines.push("reactions,0".to_string());
    }
    lines.join("\n") + if slip == Slip::LastFeedLost { "" } else { "\n" }
}
