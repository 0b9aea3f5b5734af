//! A second reader of the last two sections, reactions (02, point 3) and the events' labels (02, point 6), to make
//! wrong ones of, for the libraries of `faults.rs`.

use crate::model::{self, Label, Net, Refusal, Rule};
use std::ops::RangeInclusive;

/// What is wrong with a reader of reactions and of the events' labels.
#[derive(Clone, Copy, PartialEq)]
pub enum Slip {
    None,
    // reactions
    ZeroAccepted,
    SixtyRefused,
    SixtyOneAccepted,
    MinutesOfAByte,
    FirstLineCounts,
    LastLineCounts,
    SevenForEight,
    SixBeforeFive,
    SevenBeforeFive,
    FirstByteIsLetter,
    UndefinedIgnored,
    ThirdFieldIgnored,
    FiveLines,
    AsManyAsSignals,
    NoLinesRefused,
    TenBehindRules,
    LoneFeedAccepted,
    LoneFeedIsTen,
    EndNotAsked,
    FeedBehindAccepted,
    TwoBehind,
    TenALineBefore,
    TwiceAccepted,
    // the section of labels
    TenBehindReactions,
    CasesBehindRules,
    CasesFeedAccepted,
    CasesFeedIsTen,
    CasesOneMore,
    CasesOneLess,
    CasesOf16,
    NoCasesRefused,
    // its lines
    FirstLabelCounts,
    LastLabelCounts,
    DashNotCounted,
    SevenEightExchanged,
    EightBeforeSeven,
    SevenBeforeSix,
    NineBeforeEight,
    NineBeforeSeven,
    LetterTwiceAccepted,
    EmptyLabelIsDash,
    DashIllFormed,
    UnknownEventIgnored,
    UnknownLetterIgnored,
    MoreFieldsIgnored,
    NameBegins,
    LabelOfTheNext,
    // 20
    TwentyNotTried,
    TwentyForDash,
    TwentyAtItsLine,
    TwentyAtTheHeading,
    TwentyWithoutLine,
    TwentyBehindTheEnd,
    TwentyAtOnce,
    TwentyForLast,
    // 21
    TwentyOneFirst,
    TwentyOneNotTried,
    OfEventsOnly,
    OfRulesOnly,
    OfListedOnly,
    SoFarOnly,
    SignsNotAsked,
    FirstLetterOnly,
    OwnSignalRefused,
    TurnedAbout,
    OneStepLess,
    TwentyOneAtItsLine,
    TwentyOneWithoutLine,
    TwentyOneAtTheHeading,
    TenBeforeTwentyOne,
    TwentyOneIsEight,
    ContradictionRefused,
}

/// A sheet read the other way without a slip, so that it is the slip that is noticed.
pub fn read_again(sheet: &[u8]) -> Result<Net, Refusal> {
    read_with(sheet, Slip::None)
}

/// Where the rules of a sheet end, and what it says up to there; nothing where a line before that is at fault.
pub fn up_to_reactions(sheet: &[u8]) -> Option<(usize, Net)> {
    let ends = (1..=sheet.len()).filter(|&end| sheet[end - 1] == b'\n' && sheet.len() <= model::SHEET_MOST);
    ends.filter_map(|end| model::read(&sheet[..end]).ok().map(|net| (end, net))).next()
}

/// A number and the place of its line, the first behind the rules being 0.
type Fault = (u8, usize);

/// The last two sections read another way than the model's, with one slip or none: by lines that are cut before.
pub fn read_with(sheet: &[u8], slip: Slip) -> Result<Net, Refusal> {
    let Some((end, mut net)) = up_to_reactions(sheet) else { return model::read(sheet) };
    let lines: Vec<&[u8]> = sheet[end..].split_inclusive(|&byte| byte == b'\n').collect();
    let before = sheet[..end].iter().filter(|&&byte| byte == b'\n').count();
    let read = read_reactions(&lines, &mut net, slip).and_then(|used| match used {
        Some(used) => read_labels(sheet, &lines, used, &mut net, slip),
        None => Ok(()),
    });
    match read {
        Ok(()) => Ok(net),
        Err((number @ (20 | 21), _)) if without_line(number, slip) => Err(Refusal { number, line: 0 }),
        Err((21, _)) if slip == Slip::TwentyOneIsEight => model::read(sheet).map_err(|it| Refusal { number: 8, ..it }),
        Err((21, _)) if slip == Slip::TwentyOneAtItsLine => {
            Err(Refusal { number: 21, line: incomplete_line(sheet, &net) })
        }
        Err((number, place)) => Err(Refusal { number, line: before + 1 + place }),
    }
}

fn without_line(number: u8, slip: Slip) -> bool {
    slip == if number == 20 { Slip::TwentyWithoutLine } else { Slip::TwentyOneWithoutLine }
}

/// The section of reactions, and how many lines it has; nothing where the sheet ends before it, or is taken to.
fn read_reactions(lines: &[&[u8]], net: &mut Net, slip: Slip) -> Result<Option<usize>, Fault> {
    match (lines, slip) {
        ([], _) | ([b"\n"], Slip::LoneFeedAccepted) => return Ok(None),
        (_, Slip::TenBehindRules) | ([b"\n"], Slip::LoneFeedIsTen) => return Err((10, 0)),
        ([first, ..], Slip::CasesBehindRules) if first.starts_with(b"cases,") => return Ok(Some(0)),
        _ => {}
    }
    let count = count_line(lines[0], net, slip).map_err(|number| (number, 0))? as usize;
    let mut seen: Vec<u8> = vec![];
    for place in 1..=count {
        let read = reaction_line(lines.get(place).copied().unwrap_or(b""), net, &seen, slip);
        let (letter, minutes) = read.map_err(|number| (number, place))?;
        let counts = slip != Slip::FirstLineCounts || !seen.contains(&letter);
        let signals = net.signals.iter_mut().filter(|signal| counts && signal.letter == letter);
        signals.for_each(|signal| signal.reaction = minutes);
        seen.push(letter);
    }
    match (&lines[count + 1..], slip) {
        ([next, ..], Slip::TwiceAccepted) if next.starts_with(b"reactions,") => Ok(None),
        ([_, ..], Slip::TenBehindReactions) | ([b"\n"], Slip::CasesFeedIsTen) => Err((10, count + 1)),
        ([], _) | ([b"\n"], Slip::CasesFeedAccepted) => Ok(None),
        _ => Ok(Some(count + 1)),
    }
}

/// The section of labels, which begins behind so many lines, and the end of the sheet.
fn read_labels(sheet: &[u8], lines: &[&[u8]], used: usize, net: &mut Net, slip: Slip) -> Result<(), Fault> {
    let count = labels_count(lines[used], net, slip).map_err(|number| (number, used))? as usize;
    let names: Vec<&[u8]> = net.events.iter().map(|event| &sheet[event.clone()]).collect();
    let mut seen: Vec<usize> = vec![];
    for place in used + 1..=used + count {
        let line = lines.get(place).copied().unwrap_or(b"");
        let (event, label) = labels_line(line, &names, net, &seen, slip).map_err(|number| (number, place))?;
        let Some(event) = event else { continue };
        if slip == Slip::SoFarOnly && lacks(net, &label, slip) {
            return Err((21, place));
        }
        let dash = label.is_empty();
        if slip != Slip::FirstLabelCounts || !seen.contains(&event) {
            let event = if slip == Slip::LabelOfTheNext { (event + 1) % names.len() } else { event };
            net.labels[event] = label;
        }
        if slip != Slip::DashNotCounted || !dash {
            seen.push(event);
        }
        if slip == Slip::TwentyAtOnce && !net.labels[0].is_empty() {
            return Err((20, place));
        }
    }
    let (last, behind) = (used + count, lines.get(used + count + 1..).unwrap_or_default());
    if count > 0 {
        let own = |line: &&[u8]| line.starts_with(&[names[0], b","].concat());
        let own_line = used + 1 + lines[used + 1..].iter().position(own).unwrap_or(0);
        settle(net, &seen, slip, [used, own_line, last], behind.is_empty())?;
    }
    match (behind, slip) {
        ([], _) | (_, Slip::EndNotAsked) | ([b"\n"], Slip::FeedBehindAccepted) => Ok(()),
        ([next, ..], Slip::TwoBehind) if !next.ends_with(b"\n") => Err((2, last + 1)),
        (_, Slip::TenALineBefore) => Err((10, last)),
        _ => Err((10, last + 1)),
    }
}

/// 20 and 21, with the section's last line; the others are its heading and the start's own. These events have a line.
fn settle(net: &Net, seen: &[usize], slip: Slip, lines: [usize; 3], at_end: bool) -> Result<(), Fault> {
    let [heading, own, last] = lines;
    let twenty_one = || match lacking(net, seen, slip) {
        true if slip == Slip::TenBeforeTwentyOne && !at_end => Err((10, last + 1)),
        true if slip == Slip::TwentyOneAtTheHeading => Err((21, heading)),
        true if slip != Slip::TwentyOneNotTried && slip != Slip::SoFarOnly => Err((21, last)),
        _ => Ok(()),
    };
    if slip == Slip::TwentyOneFirst {
        twenty_one()?;
    }
    let start = if slip == Slip::TwentyForLast { net.labels.len() - 1 } else { 0 };
    let asked = !net.labels[start].is_empty() || slip == Slip::TwentyForDash && seen.contains(&0);
    match slip {
        Slip::TwentyNotTried => {}
        _ if !asked => {}
        Slip::TwentyAtItsLine => return Err((20, own)),
        Slip::TwentyAtTheHeading => return Err((20, heading)),
        Slip::TwentyBehindTheEnd if !at_end => return Err((10, last + 1)),
        _ => return Err((20, last)),
    }
    twenty_one()
}

/// Whether a label of the sheet lacks something; these events have a line.
fn lacking(net: &Net, seen: &[usize], slip: Slip) -> bool {
    let of_events = (0..net.labels.len()).filter(|event| slip != Slip::OfListedOnly || seen.contains(event));
    let events = of_events.map(|event| &net.labels[event]).filter(|_| slip != Slip::OfRulesOnly);
    let skipped = matches!(slip, Slip::OfEventsOnly | Slip::OfListedOnly);
    let rules = net.rules.iter().filter(|_| !skipped).map(|rule| &rule.label);
    let contradicts = |rule: &Rule| !(0..net.cases()).any(|case| net.covers(rule, case));
    let own = |event: usize| net.labels[event].iter().any(|letter| net.signals[letter.0].event == event);
    events.chain(rules).any(|label| lacks(net, label, slip))
        || slip == Slip::OwnSignalRefused && (0..net.labels.len()).any(own)
        || slip == Slip::ContradictionRefused && net.rules.iter().any(contradicts)
}

/// Whether a label lacks part of the label of an event whose signal it uses.
fn lacks(net: &Net, label: &[(usize, bool)], slip: Slip) -> bool {
    let used = if slip == Slip::FirstLetterOnly { &label[..label.len().min(1)] } else { label };
    used.iter().any(|&(signal, _)| {
        let asked = &net.labels[net.signals[signal].event];
        let has = |&(letter, truth): &(usize, bool)| match slip {
            Slip::SignsNotAsked => label.iter().any(|own| own.0 == letter),
            _ => label.contains(&(letter, truth)),
        };
        match slip {
            Slip::TurnedAbout => !asked.is_empty() && !label.iter().all(|own| own.0 == signal || asked.contains(own)),
            Slip::OneStepLess => asked.len() == 1 && !asked.iter().all(has),
            _ => !asked.iter().all(has),
        }
    })
}

/// The line of the sheet with the first label that lacks something: a rule's, or else an event's.
fn incomplete_line(sheet: &[u8], net: &Net) -> usize {
    let lines: Vec<&[u8]> = sheet.split(|&byte| byte == b'\n').collect();
    let rules = 3 + net.events.len() + 1 + net.signals.len();
    if let Some(place) = net.rules.iter().position(|rule| lacks(net, &rule.label, Slip::None)) {
        return rules + 1 + place;
    }
    let event = (0..net.labels.len()).find(|&event| lacks(net, &net.labels[event], Slip::None)).expect("a label");
    let name = [&sheet[net.events[event].clone()], b","].concat();
    let after = lines.iter().rposition(|line| line.starts_with(b"cases,")).unwrap_or(0);
    1 + after + lines[after..].iter().position(|line| line.starts_with(&name)).unwrap_or(0)
}

fn labels_count(line: &[u8], net: &Net, slip: Slip) -> Result<i64, u8> {
    let events = net.events.len() as i64;
    let most = match slip {
        Slip::CasesOneMore => events + 1,
        Slip::CasesOneLess => events - 1,
        Slip::CasesOf16 => 16,
        _ => events,
    };
    match cut(line)?[..] {
        [b"cases", count] => small_number(count, i64::from(slip == Slip::NoCasesRefused)..=most),
        _ => Err(3),
    }
}

/// The event, or nothing where a wrong reader passes over the line, and its label; these events have a line already.
fn labels_line(
    line: &[u8], names: &[&[u8]], net: &Net, seen: &[usize], slip: Slip,
) -> Result<(Option<usize>, Label), u8> {
    let fields = cut(line)?;
    if fields.len() != 2 && (slip != Slip::MoreFieldsIgnored || fields.len() != 3) {
        return Err(3);
    }
    let place = |name: &&&[u8]| **name == fields[0] || slip == Slip::NameBegins && name.starts_with(fields[0]);
    let event = names.iter().find(place).and_then(|name| names.iter().position(|other| other == name));
    let shaped = matches!(fields[0], [b'a'..=b'z', ..]) && fields[0].len() <= 8;
    let shaped = shaped && fields[0].iter().all(|byte| matches!(byte, b'a'..=b'z' | b'0'..=b'9'));
    let letters = spelt(fields[1], slip);
    let signal = |letter: u8| net.signals.iter().position(|signal| signal.letter == letter);
    let twice = event.is_some_and(|event| seen.contains(&event));
    let all = letters.clone().unwrap_or_default();
    let unknown = all.iter().any(|letter| signal(letter.0).is_none()) && slip != Slip::UnknownLetterIgnored;
    let letter_twice = (1..all.len()).any(|last| all[..last].iter().any(|letter| letter.0 == all[last].0));
    let accepted_twice = matches!(slip, Slip::FirstLabelCounts | Slip::LastLabelCounts);
    let (seven, eight) = if slip == Slip::SevenEightExchanged { (8, 7) } else { (7, 8) };
    let tests = [
        (!shaped || letters.is_none(), 6),
        (twice && !accepted_twice, seven),
        (event.is_none() && slip != Slip::UnknownEventIgnored || unknown, eight),
        (letter_twice && slip != Slip::LetterTwiceAccepted, 9),
    ];
    let order = match slip {
        Slip::EightBeforeSeven => [0, 2, 1, 3],
        Slip::SevenBeforeSix => [1, 0, 2, 3],
        Slip::NineBeforeEight => [0, 1, 3, 2],
        Slip::NineBeforeSeven => [0, 3, 1, 2],
        _ => [0, 1, 2, 3],
    };
    match order.into_iter().map(|place| tests[place]).find(|test| test.0) {
        Some((_, number)) => Err(number),
        None => {
            let known = all.iter().filter_map(|&(letter, truth)| signal(letter).map(|signal| (signal, truth)));
            let mut label: Label = vec![];
            known.for_each(|it| if label.iter().all(|other| other.0 != it.0) { label.push(it) });
            Ok((event, label))
        }
    }
}

/// The letters of a label, or nothing for what is none.
fn spelt(field: &[u8], slip: Slip) -> Option<Vec<(u8, bool)>> {
    match field {
        b"-" if slip != Slip::DashIllFormed => return Some(vec![]),
        b"" if slip == Slip::EmptyLabelIsDash => return Some(vec![]),
        b"" => return None,
        _ => {}
    }
    let mut letters = vec![];
    let mut negated = false;
    for &byte in field {
        match byte {
            b'!' if !negated => negated = true,
            b'a'..=b'z' => letters.push((byte, !std::mem::take(&mut negated))),
            _ => return None,
        }
    }
    if negated { None } else { Some(letters) }
}

/// A line without its line feed, cut at its commas; or 2.
fn cut(line: &[u8]) -> Result<Vec<&[u8]>, u8> {
    line.strip_suffix(b"\n").map(|line| line.split(|&byte| byte == b',').collect()).ok_or(2)
}

/// 4 for what is no number, 5 for one beyond its range.
fn small_number(field: &[u8], range: RangeInclusive<i64>) -> Result<i64, u8> {
    let text = String::from_utf8_lossy(field);
    let digits = text.strip_prefix('-').unwrap_or(&text);
    let whole = !digits.is_empty() && !digits.starts_with('0') && digits.bytes().all(|byte| byte.is_ascii_digit());
    if whole || text == "0" { text.parse().ok().filter(|number| range.contains(number)).ok_or(5) } else { Err(4) }
}

fn count_line(line: &[u8], net: &Net, slip: Slip) -> Result<i64, u8> {
    let most = match slip {
        Slip::FiveLines => 5,
        Slip::AsManyAsSignals => net.signals.len() as i64,
        _ => 4,
    };
    match cut(line)?[..] {
        [b"reactions", count] => small_number(count, i64::from(slip == Slip::NoLinesRefused)..=most),
        _ => Err(3),
    }
}

/// The letter and its minutes; these letters have a line already.
fn reaction_line(line: &[u8], net: &Net, seen: &[u8], slip: Slip) -> Result<(u8, i64), u8> {
    let fields = cut(line)?;
    if fields.len() != 2 && (slip != Slip::ThirdFieldIgnored || fields.len() != 3) {
        return Err(3);
    }
    let minutes = match slip {
        Slip::ZeroAccepted => small_number(fields[1], 0..=60),
        Slip::SixtyRefused => small_number(fields[1], 1..=59),
        Slip::SixtyOneAccepted => small_number(fields[1], 1..=61),
        Slip::MinutesOfAByte => match small_number(fields[1], 1..=65_535).map(|minutes| minutes % 256) {
            Ok(0 | 61..) => Err(5),
            minutes => minutes,
        },
        _ => small_number(fields[1], 1..=60),
    };
    let letter = match fields[0] {
        [letter @ b'a'..=b'z'] => Ok(*letter),
        [letter @ b'a'..=b'z', ..] if slip == Slip::FirstByteIsLetter => Ok(*letter),
        _ => Err(6),
    };
    let twice = letter.is_ok_and(|letter| seen.contains(&letter));
    match (minutes, letter) {
        (Err(5), Err(6)) if slip == Slip::SixBeforeFive => Err(6),
        (Err(5), _) if twice && slip == Slip::SevenBeforeFive => Err(7),
        (Err(number), _) | (_, Err(number)) => Err(number),
        (Ok(minutes), Ok(letter)) if twice => match slip {
            Slip::FirstLineCounts | Slip::LastLineCounts => Ok((letter, minutes)),
            slip => Err(if slip == Slip::SevenForEight { 8 } else { 7 }),
        },
        (Ok(minutes), Ok(letter)) => match net.signals.iter().any(|signal| signal.letter == letter) {
            false if slip == Slip::SevenForEight => Err(7),
            false if slip != Slip::UndefinedIgnored => Err(8),
            _ => Ok((letter, minutes)),
        },
    }
}
