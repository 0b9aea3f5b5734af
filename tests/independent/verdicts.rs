//! Wrong programs that judge a listing's table (02, points 4 and 6), to see that the comparison notices them: with
//! wrong readers of `readers.rs`, wrong words, or wrong judges, of `labels.rs` too.

use crate::labels::{self, Slip as Absent};
use crate::model::{self, Files, Net, Refusal, Verdict};
use crate::readers::{self, Slip};

/// What a program prints for its two files.
pub type Judging = fn(&Files) -> String;

pub const JUDGE_FAULTS: [(&str, Judging); 143] = [
    ("18-and-19-exchanged", |files| read_by(files, Slip::NumbersExchanged)),
    ("lines-in-turn", |files| read_by(files, Slip::LinesInTurn)),
    ("19-before-18-on-a-line", |files| read_by(files, Slip::NineteenOnTheLine)),
    ("19-before-18", |files| read_by(files, Slip::NineteenFirst)),
    ("last-line-at-fault", |files| read_by(files, Slip::LastLineAtFault)),
    ("last-19-told", |files| read_by(files, Slip::LastNineteen)),
    ("line-from-0", |files| read_by(files, Slip::LineFrom0)),
    ("line-lost", |files| read_by(files, Slip::LineLost)),
    ("19-without-line", |files| read_by(files, Slip::NineteenWithoutLine)),
    ("missing-is-last", |files| read_by(files, Slip::MissingIsLast)),
    ("left-over-is-last", |files| read_by(files, Slip::LeftOverIsLast)),
    ("left-over-is-19", |files| read_by(files, Slip::LeftOverIsNineteen)),
    ("4096-refused", |files| read_by(files, Slip::Refused4096)),
    ("4097-accepted", |files| read_by(files, Slip::Accepted4097)),
    ("length-not-asked", |files| read_by(files, Slip::LengthNotAsked)),
    ("long-without-line", |files| read_by(files, Slip::LongWithoutLine)),
    ("only-4096-seen", |files| read_by(files, Slip::Only4096Seen)),
    ("length-of-16-bits", |files| read_by(files, Slip::LengthOf16Bits)),
    ("header-not-read", |files| read_by(files, Slip::HeaderNotRead)),
    ("names-not-compared", |files| read_by(files, Slip::NamesNotCompared)),
    ("names-in-any-order", |files| read_by(files, Slip::NamesInAnyOrder)),
    ("names-may-go-on", |files| read_by(files, Slip::NamesMayGoOn)),
    ("more-names-accepted", |files| read_by(files, Slip::MoreNamesAccepted)),
    ("fewer-names-accepted", |files| read_by(files, Slip::FewerNamesAccepted)),
    ("first-letters-only", |files| read_by(files, Slip::FirstLettersOnly)),
    ("any-first-word", |files| read_by(files, Slip::AnyFirstWord)),
    ("header-capitals", |files| read_by(files, Slip::HeaderCapitals)),
    ("header-cr-accepted", |files| read_by(files, Slip::HeaderCrAccepted)),
    ("header-may-be-missing", |files| read_by(files, Slip::HeaderMayBeMissing)),
    ("left-over-accepted", |files| read_by(files, Slip::LeftOverAccepted)),
    ("feed-behind-accepted", |files| read_by(files, Slip::FeedBehindAccepted)),
    ("last-feed-optional", |files| read_by(files, Slip::LastFeedOptional)),
    ("empty-lines-skipped", |files| read_by(files, Slip::EmptyLinesSkipped)),
    ("cr-accepted", |files| read_by(files, Slip::CrAccepted)),
    ("cr-is-18", |files| read_by(files, Slip::CrIsEighteen)),
    ("nul-ends-the-listing", |files| read_by(files, Slip::NulEnds)),
    ("seven-bits", |files| read_by(files, Slip::SevenBits)),
    ("missing-is-zeros", |files| read_by(files, Slip::MissingIsZeros)),
    ("marks-not-compared", |files| read_by(files, Slip::MarksNotCompared)),
    ("marks-in-lower-case", |files| read_by(files, Slip::MarksInLowerCase)),
    ("marks-reversed", |files| read_by(files, Slip::MarksReversed)),
    ("mark-begins", |files| read_by(files, Slip::MarkBegins)),
    ("dash-may-be-missing", |files| read_by(files, Slip::DashMayBeMissing)),
    ("rows-in-any-order", |files| read_by(files, Slip::RowsInAnyOrder)),
    ("second-into-first", |files| read_by(files, Slip::SecondIntoFirst)),
    ("more-fields-ignored", |files| read_by(files, Slip::MoreFieldsIgnored)),
    ("last-comma-ignored", |files| read_by(files, Slip::LastCommaIgnored)),
    ("missing-field-is-0", |files| read_by(files, Slip::MissingFieldIsZero)),
    ("fields-are-19", |files| read_by(files, Slip::FieldsAreNineteen)),
    ("65535-accepted", |files| read_by(files, Slip::Accepted65535)),
    ("65534-refused", |files| read_by(files, Slip::Refused65534)),
    ("dash-refused", |files| read_by(files, Slip::DashRefused)),
    ("dash-is-0", |files| read_by(files, Slip::DashIsZero)),
    ("dash-is-65534", |files| read_by(files, Slip::DashIs65534)),
    ("dash-is-18", |files| read_by(files, Slip::DashIsEighteen)),
    ("dash-with-spaces", |files| read_by(files, Slip::DashWithSpaces)),
    ("dash-of-two", |files| read_by(files, Slip::DashOfTwo)),
    ("dash-only-once-a-row", |files| read_by(files, Slip::DashOnlyOnce)),
    ("dash-not-at-the-start", |files| read_by(files, Slip::DashNotAtTheStart)),
    ("dash-only-in-labelled", |files| read_by(files, Slip::DashOnlyInLabelled)),
    ("dash-only-where-absent", |files| read_by(files, Slip::DashOnlyWhereAbsent)),
    ("65536-is-0", |files| read_by(files, Slip::Accepted65536)),
    ("wraps-at-2-16", |files| read_by(files, Slip::WrapsAt16Bits)),
    ("wraps-at-2-32", |files| read_by(files, Slip::WrapsAt32Bits)),
    ("wraps-at-2-64", |files| read_by(files, Slip::WrapsAt64Bits)),
    ("capped-at-65534", |files| read_by(files, Slip::Capped)),
    ("10080-at-most", |files| read_by(files, Slip::AsFarAs10080)),
    ("horizon-at-most", |files| read_by(files, Slip::AsFarAsHorizon)),
    ("leading-0-accepted", |files| read_by(files, Slip::LeadingZero)),
    ("minus-0-accepted", |files| read_by(files, Slip::MinusZero)),
    ("plus-accepted", |files| read_by(files, Slip::Plus)),
    ("minus-ignored", |files| read_by(files, Slip::MinusIgnored)),
    ("spaces-accepted", |files| read_by(files, Slip::Spaces)),
    ("empty-is-0", |files| read_by(files, Slip::EmptyIsZero)),
    ("empty-is-18", |files| read_by(files, Slip::EmptyIsEighteen)),
    ("negative-is-18", |files| read_by(files, Slip::NegativeIsEighteen)),
    ("over-is-18", |files| read_by(files, Slip::OverIsEighteen)),
    ("digits-then-anything", |files| read_by(files, Slip::DigitsThenAnything)),
    ("colon-is-digit", |files| read_by(files, Slip::ColonIsDigit)),
    ("last-minute-not-read", |files| read_by(files, Slip::LastMinuteNotRead)),
    ("start-is-0", |files| read_by(files, Slip::StartIsZero)),
    ("words-in-capitals", |files| right(files).to_uppercase()),
    ("spaces-doubled", |files| right(files).replace(' ', "  ")),
    ("commas-between", |files| right(files).replace(' ', ",")),
    ("space-at-the-end", |files| right(files).replace('\n', " \n")),
    ("feed-lost", |files| right(files).replace('\n', "")),
    ("feed-doubled", |files| right(files).replace('\n', "\n\n")),
    ("cr-before-the-feed", |files| right(files).replace('\n', "\r\n")),
    ("good-for-pass", |files| right(files).replace("pass", "good")),
    ("pass-is-silent", |files| right(files).replace("pass\n", "")),
    ("rule-for-late", |files| right(files).replace("late", "rule")),
    ("late-for-rule", |files| right(files).replace("rule", "late")),
    ("heard-for-unheard", |files| right(files).replace("unheard", "heard")),
    ("judged-before-it", |files| format!("judged {}", right(files))),
    ("listing-behind-it", |files| right(files) + &String::from_utf8_lossy(files.bytes().1)),
    ("refusal-without-line", |files| right(files).split(" line").next().unwrap_or("").trim_end().to_string() + "\n"),
    ("refusal-with-a-comma", |files| right(files).replace(" line", ", line")),
    ("refusal-is-silent", |files| if outcome(files).is_err() { String::new() } else { right(files) }),
    ("late-exchanged", |files| with_numbers(files, "late", |numbers| numbers.reverse())),
    ("rule-exchanged", |files| with_numbers(files, "rule", |numbers| numbers.reverse())),
    ("unheard-cases-exchanged", |files| with_numbers(files, "unheard", |numbers| numbers.swap(0, 1))),
    ("unheard-event-first", |files| with_numbers(files, "unheard", |numbers| numbers.rotate_right(1))),
    ("unheard-event-lost", |files| with_numbers(files, "unheard", |numbers| numbers.truncate(2))),
    ("unheard-numbers-lost", |files| with_numbers(files, "unheard", |numbers| numbers.clear())),
    ("late-case-from-1", |files| with_numbers(files, "late", |numbers| numbers[0] += 1)),
    ("late-event-from-1", |files| with_numbers(files, "late", |numbers| numbers[1] += 1)),
    ("rule-from-1", |files| with_numbers(files, "rule", |numbers| numbers[1] += 1)),
    ("unheard-event-from-1", |files| with_numbers(files, "unheard", |numbers| numbers[2] += 1)),
    ("numbers-of-one-digit", |files| with_numbers(files, "rule", |all| all.iter_mut().for_each(|one| *one %= 10))),
    ("passes-all", |files| judged_by(files, |_, _| Verdict::Pass)),
    ("point-1-not-asked", |files| judged_by(files, point_1_not_asked)),
    ("point-2-not-asked", |files| judged_by(files, |net, table| model::judge(&without_rules(net), table))),
    ("point-3-not-asked", |files| judged_by(files, point_3_not_asked)),
    ("first-case-only", |files| judged_by(files, first_case_only)),
    ("reactions-ignored", |files| judged_by(files, |net, table| model::judge(&hasty(net), table))),
    ("filled-not-asked", |files| judged_by(files, |net, table| labels::judge(net, table, Absent::FilledNotAsked))),
    ("blank-not-asked", |files| judged_by(files, |net, table| labels::judge(net, table, Absent::BlankNotAsked))),
    ("labels-ignored", |files| judged_by(files, |net, table| labels::judge(net, table, Absent::LabelsIgnored))),
    ("wait-not-asked", |files| judged_by(files, |net, table| labels::judge(net, table, Absent::WaitNotAsked))),
    ("wait-of-one", |files| judged_by(files, |net, table| labels::judge(net, table, Absent::WaitOfOne))),
    ("wait-not-for-blanks", |files| judged_by(files, |net, table| labels::judge(net, table, Absent::WaitNotForBlanks))),
    ("waits-behind-the-rest", |files| judged_by(files, |net, table| labels::judge(net, table, Absent::WaitsLast))),
    ("rule-by-label-only", |files| judged_by(files, |net, table| labels::judge(net, table, Absent::RuleByLabel))),
    ("blank-is-0-in-a-rule", |files| judged_by(files, |net, table| labels::judge(net, table, Absent::BlankIsZero))),
    ("not-given-counts", |files| judged_by(files, |net, table| labels::judge(net, table, Absent::NotGivenCounts))),
    ("one-case-is-unheard", |files| judged_by(files, |net, table| labels::judge(net, table, Absent::OneCaseUnheard))),
    ("only-the-least-passes", |files| judged_by(files, only_the_least_passes)),
    ("13-where-none-is-good", |files| refused_where(files, 13, |net, _| model::solve(net).is_none())),
    ("14-for-a-breach", |files| refused_where(files, 14, |net, table| model::judge(net, table) != Verdict::Pass)),
    ("no-sheet-is-silent", |files| if files.sheet.is_none() { String::new() } else { right(files) }),
    ("no-sheet-is-line-0", |files| if files.sheet.is_none() { refused(2, 0) } else { right(files) }),
    ("no-sheet-is-1", |files| if files.sheet.is_none() { refused(1, 0) } else { right(files) }),
    ("no-listing-is-silent", |files| if files.listing.is_none() { String::new() } else { right(files) }),
    ("no-listing-is-line-0", |files| if files.listing.is_none() { refused(18, 0) } else { right(files) }),
    ("no-listing-before-sheet", |files| if files.listing.is_none() { refused(18, 1) } else { right(files) }),
    ("no-listing-passes", |files| if files.listing.is_none() { "pass\n".to_string() } else { right(files) }),
    ("long-listing-before-sheet", |files| if files.bytes().1.len() > 4096 { refused(18, 1) } else { right(files) }),
    ("long-listing-is-1", |files| if files.bytes().1.len() > 4096 { refused(1, 0) } else { right(files) }),
    ("listing-before-sheet", listing_before_sheet),
    ("long-sheet-cut", |files| with_sheet(files, |sheet| sheet.truncate(4096))),
    ("sheet-length-of-16-bits", |files| with_sheet(files, |sheet| sheet.truncate(sheet.len() % 65_536))),
    ("fix-is-read", |files| with_sheet(files, |sheet| *sheet = model::convert(sheet).unwrap_or(sheet.clone()))),
    ("files-exchanged", |files| right(&Files { sheet: files.listing.clone(), listing: files.sheet.clone() })),
];

/// The same without a slip, so that it is the slip that is noticed.
pub fn judge_by_faults(files: &Files) -> String {
    read_by(files, Slip::None)
}

fn outcome(files: &Files) -> Result<Verdict, Refusal> {
    let (sheet, listing) = files.bytes();
    model::judge_listing(sheet, listing)
}

/// What the model says.
pub fn right(files: &Files) -> String {
    model::judge_text(&outcome(files))
}

fn refused(number: u8, line: usize) -> String {
    model::judge_text(&Err(Refusal { number, line }))
}

/// The right judge, with another reader.
fn read_by(files: &Files, slip: Slip) -> String {
    let (sheet, listing) = files.bytes();
    let read = readers::read_with(sheet, listing, slip);
    let judged = |table: Vec<u16>| model::read(sheet).map(|net| model::judge(&net, &table));
    model::judge_text(&read.and_then(judged))
}

/// The right reader, with another judge.
fn judged_by(files: &Files, judge: fn(&Net, &[u16]) -> Verdict) -> String {
    let (sheet, listing) = files.bytes();
    let judged = |net: Net| model::returned(sheet, &net, listing).map(|table| judge(&net, &table));
    model::judge_text(&model::read(sheet).and_then(judged))
}

/// A refusal in place of some verdicts.
fn refused_where(files: &Files, number: u8, where_so: fn(&Net, &[u16]) -> bool) -> String {
    let (sheet, listing) = files.bytes();
    let so = |net: Net| model::returned(sheet, &net, listing).map(|table| where_so(&net, &table));
    if model::read(sheet).and_then(so) == Ok(true) { refused(number, 0) } else { right(files) }
}

/// The right answer, with its numbers changed where it begins with this word.
fn with_numbers(files: &Files, word: &str, change: fn(&mut Vec<usize>)) -> String {
    let said = right(files);
    let mut words = said.split_whitespace();
    if words.next() != Some(word) {
        return said;
    }
    let mut numbers = words.map(|number| number.parse().expect("a number")).collect();
    change(&mut numbers);
    format!("{word}{}\n", numbers.iter().map(|number| format!(" {number}")).collect::<String>())
}

/// The right program, with another sheet.
fn with_sheet(files: &Files, change: fn(&mut Vec<u8>)) -> String {
    let mut changed = files.clone();
    changed.sheet.iter_mut().for_each(change);
    right(&changed)
}

/// A listing that no sheet has, as it does not begin with the word, before the sheet's own refusal.
fn listing_before_sheet(files: &Files) -> String {
    if files.bytes().1.starts_with(b"case,") { right(files) } else { refused(18, 1) }
}

fn without_rules(net: &Net) -> Net {
    Net { rules: vec![], ..net.clone() }
}

/// The same with each signal trusted after a minute.
fn hasty(net: &Net) -> Net {
    let mut hasty = net.clone();
    hasty.signals.iter_mut().for_each(|signal| signal.reaction = 1);
    hasty
}

/// The horizon put off; a start that isn't 0 is still late, and so is what labels forbid but for a blank.
fn point_1_not_asked(net: &Net, table: &[u16]) -> Verdict {
    model::judge(&Net { horizon: 65_535, ..net.clone() }, table)
}

fn point_3_not_asked(net: &Net, table: &[u16]) -> Verdict {
    match model::judge(net, table) {
        Verdict::Unheard { .. } => Verdict::Pass,
        found => found,
    }
}

fn first_case_only(net: &Net, table: &[u16]) -> Verdict {
    let found = model::judge(net, table);
    match found {
        Verdict::Late { case: 0, .. } | Verdict::Rule { case: 0, .. } | Verdict::Unheard { s: 0, .. } => found,
        _ => Verdict::Pass,
    }
}

/// A good table is late where the least one has an earlier minute.
fn only_the_least_passes(net: &Net, table: &[u16]) -> Verdict {
    let found = model::judge(net, table);
    let Some(least) = model::solve(net) else { return found };
    match (0..table.len()).find(|&cell| table[cell] != least[cell]) {
        Some(cell) if found == Verdict::Pass => {
            Verdict::Late { case: cell / net.events.len(), event: cell % net.events.len() }
        }
        _ => found,
    }
}
