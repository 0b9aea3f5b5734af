//! Two other ways to read a listing back (02, points 4 and 6) than the model's. One finds every fault and then says
//! which one counts; with a slip it is a wrong reader, for the libraries of `faults.rs` and the programs of
//! `verdicts.rs`. The other says only whether a listing is accepted, by printing.

use crate::model::{self, Net, Refusal};

/// What is wrong with a reader of listings.
#[derive(Clone, Copy, PartialEq)]
pub enum Slip {
    None,
    // which fault counts, and what is said of it
    NumbersExchanged,
    LinesInTurn,
    NineteenOnTheLine,
    NineteenFirst,
    LastLineAtFault,
    LastNineteen,
    LineFrom0,
    LineLost,
    NineteenWithoutLine,
    MissingIsLast,
    LeftOverIsLast,
    LeftOverIsNineteen,
    // the length
    Refused4096,
    Accepted4097,
    LengthNotAsked,
    LongWithoutLine,
    Only4096Seen,
    LengthOf16Bits,
    // the header
    HeaderNotRead,
    NamesNotCompared,
    NamesInAnyOrder,
    NamesMayGoOn,
    MoreNamesAccepted,
    FewerNamesAccepted,
    FirstLettersOnly,
    AnyFirstWord,
    HeaderCapitals,
    HeaderCrAccepted,
    HeaderMayBeMissing,
    // lines
    LeftOverAccepted,
    FeedBehindAccepted,
    LastFeedOptional,
    EmptyLinesSkipped,
    CrAccepted,
    CrIsEighteen,
    NulEnds,
    SevenBits,
    MissingIsZeros,
    // marks and fields
    MarksNotCompared,
    MarksInLowerCase,
    MarksReversed,
    MarkBegins,
    DashMayBeMissing,
    RowsInAnyOrder,
    SecondIntoFirst,
    MoreFieldsIgnored,
    LastCommaIgnored,
    MissingFieldIsZero,
    FieldsAreNineteen,
    // minutes
    Accepted65535,
    Refused65534,
    DashRefused,
    DashIsZero,
    DashIs65534,
    DashIsEighteen,
    DashWithSpaces,
    DashOfTwo,
    DashOnlyOnce,
    DashNotAtTheStart,
    DashOnlyInLabelled,
    DashOnlyWhereAbsent,
    Accepted65536,
    WrapsAt16Bits,
    WrapsAt32Bits,
    WrapsAt64Bits,
    Capped,
    AsFarAs10080,
    AsFarAsHorizon,
    LeadingZero,
    MinusZero,
    Plus,
    MinusIgnored,
    Spaces,
    EmptyIsZero,
    EmptyIsEighteen,
    NegativeIsEighteen,
    OverIsEighteen,
    DigitsThenAnything,
    ColonIsDigit,
    LastMinuteNotRead,
    StartIsZero,
}

/// A listing read the other way without a slip, so that it is the slip that is noticed.
pub fn read_again(sheet: &[u8], listing: &[u8]) -> Result<Vec<u16>, Refusal> {
    read_with(sheet, listing, Slip::None)
}

/// A number of a refusal and its line.
type Fault = (u8, usize);

/// The table of a listing, or the refusal of the sheet or of the listing: all faults are found, then one is chosen.
pub fn read_with(sheet: &[u8], listing: &[u8], slip: Slip) -> Result<Vec<u16>, Refusal> {
    let net = model::read(sheet)?;
    let text = seen(sheet, &net, listing, slip);
    let lines: Vec<&[u8]> = text.split_inclusive(|&byte| byte == b'\n').collect();
    let mut faults = too_long(listing.len(), slip);
    if !header_fits(&names(sheet, &net), lines.first().copied().unwrap_or_default(), slip) {
        faults.push((18, 1));
    }
    let mut table = vec![];
    for case in 0..net.cases() {
        let (numbers, minutes) = read_row(&net, case, &lines, slip);
        let line = if lines.len() < 2 + case && slip == Slip::MissingIsLast { case + 1 } else { case + 2 };
        faults.extend(numbers.into_iter().map(|number| (number, line)));
        table.extend(minutes);
    }
    if lines.len() > 1 + net.cases() && slip != Slip::LeftOverAccepted {
        faults.push(left_over(net.cases(), slip));
    }
    if slip == Slip::SecondIntoFirst && net.cases() > 1 && table.len() == net.cells() {
        table.copy_within(net.events.len()..2 * net.events.len(), 0);
    }
    match chosen(faults, slip) {
        Some((number, line)) => Err(Refusal { number, line }),
        None => Ok(table),
    }
}

/// The listing as a reader sees it.
fn seen(sheet: &[u8], net: &Net, listing: &[u8], slip: Slip) -> Vec<u8> {
    let header = [&b"case,"[..], &names(sheet, net).join(&b","[..])].concat();
    let lines = listing.split_inclusive(|&byte| byte == b'\n');
    let without_cr = |line: &[u8]| match line.strip_suffix(b"\r\n") {
        Some(line) => [line, b"\n"].concat(),
        None => line.to_vec(),
    };
    match slip {
        Slip::Only4096Seen => listing[..listing.len().min(4096)].to_vec(),
        Slip::LengthOf16Bits => listing[..listing.len() % 65_536].to_vec(),
        Slip::HeaderCrAccepted => match listing.strip_prefix(&[&header, &b"\r\n"[..]].concat()[..]) {
            Some(rest) => [&header, &b"\n"[..], rest].concat(),
            None => listing.to_vec(),
        },
        Slip::HeaderMayBeMissing if !listing.starts_with(b"case") => [&header, &b"\n"[..], listing].concat(),
        Slip::FeedBehindAccepted if listing.ends_with(b"\n\n") => listing[..listing.len() - 1].to_vec(),
        Slip::LastFeedOptional if !listing.ends_with(b"\n") => [listing, b"\n"].concat(),
        Slip::EmptyLinesSkipped => lines.filter(|line| line != b"\n").collect::<Vec<&[u8]>>().concat(),
        Slip::CrAccepted => lines.flat_map(without_cr).collect(),
        Slip::NulEnds => listing.split(|&byte| byte == 0).next().unwrap_or_default().to_vec(),
        Slip::SevenBits => listing.iter().map(|byte| byte & 127).collect(),
        _ => listing.to_vec(),
    }
}

fn too_long(length: usize, slip: Slip) -> Vec<Fault> {
    let (length, most) = match slip {
        Slip::Refused4096 => (length, 4095),
        Slip::Accepted4097 => (length, 4097),
        Slip::LengthNotAsked | Slip::Only4096Seen => (0, 0),
        Slip::LengthOf16Bits => (length % 65_536, 4096),
        _ => (length, 4096),
    };
    match length > most {
        true if slip == Slip::LongWithoutLine => vec![(18, 0)],
        true => vec![(18, 1)],
        false => vec![],
    }
}

/// The names as they are typed in the sheet, whose first two lines have none.
fn names<'a>(sheet: &'a [u8], net: &Net) -> Vec<&'a [u8]> {
    sheet.split(|&byte| byte == b'\n').skip(2).take(net.events.len()).collect()
}

fn header_fits(names: &[&[u8]], line: &[u8], slip: Slip) -> bool {
    let Some(line) = line.strip_suffix(b"\n") else { return false };
    let lower = line.to_ascii_lowercase();
    let line = if slip == Slip::HeaderCapitals { &lower } else { line };
    let (word, told) = match line.split(|&byte| byte == b',').collect::<Vec<&[u8]>>()[..] {
        [word, ref told @ ..] => (word, told.to_vec()),
        [] => (&b""[..], vec![]),
    };
    let sorted = |names: &[&[u8]]| {
        let mut names: Vec<Vec<u8>> = names.iter().map(|name| name.to_vec()).collect();
        names.sort();
        names
    };
    let firsts = |names: &[&[u8]]| -> Vec<Option<u8>> { names.iter().map(|name| name.first().copied()).collect() };
    let go_on = || told.len() == names.len() && told.iter().zip(names).all(|(told, name)| told.starts_with(name));
    let names_fit = match slip {
        Slip::NamesNotCompared => told.len() == names.len(),
        Slip::NamesInAnyOrder => sorted(&told) == sorted(names),
        Slip::NamesMayGoOn => go_on(),
        Slip::MoreNamesAccepted => told.starts_with(names),
        Slip::FewerNamesAccepted => names.starts_with(&told),
        Slip::FirstLettersOnly => firsts(&told) == firsts(names),
        _ => told == names,
    };
    slip == Slip::HeaderNotRead || names_fit && (word == b"case" || slip == Slip::AnyFirstWord)
}

/// `F` and `T` from the case number's digits in base two, the last of which is the first signal's.
fn mark(net: &Net, case: usize, slip: Slip) -> Vec<u8> {
    let signals = net.signals.len();
    let digits: String = if signals == 0 { "-".to_string() } else { format!("{case:0signals$b}") };
    let mark = digits.replace('0', "F").replace('1', "T").into_bytes();
    if slip == Slip::MarksReversed { mark } else { mark.into_iter().rev().collect() }
}

fn mark_fits(told: &[u8], mark: &[u8], slip: Slip) -> bool {
    match slip {
        Slip::MarksNotCompared => true,
        Slip::MarksInLowerCase => told.to_ascii_uppercase() == mark,
        Slip::MarkBegins => told.starts_with(mark),
        Slip::DashMayBeMissing if mark == b"-" => told == mark || told.is_empty(),
        _ => told == mark,
    }
}

/// The line of a case: what is at fault on it, and its minutes, as far as it has any.
fn read_row(net: &Net, case: usize, lines: &[&[u8]], slip: Slip) -> (Vec<u8>, Vec<u16>) {
    let mark = mark(net, case, slip);
    let begins = |line: &&&[u8]| line.starts_with(&[&mark[..], b","].concat());
    let line = match slip {
        Slip::RowsInAnyOrder => lines.iter().skip(1).find(begins).or(lines.get(1 + case)),
        _ => lines.get(1 + case),
    };
    let Some(line) = line.and_then(|line| line.strip_suffix(b"\n")) else {
        return if slip == Slip::MissingIsZeros { (vec![], vec![0; net.events.len()]) } else { (vec![18], vec![]) };
    };
    let mut fields: Vec<&[u8]> = line.split(|&byte| byte == b',').collect();
    mend_count(&mut fields, 1 + net.events.len(), slip);
    let mut numbers = vec![];
    if fields.len() != 1 + net.events.len() {
        numbers.push(if slip == Slip::FieldsAreNineteen { 19 } else { 18 });
    }
    if !mark_fits(fields[0], &mark, slip) {
        numbers.push(18);
    }
    let mut minutes = vec![];
    for (event, field) in fields[1..].iter().enumerate() {
        match minute(net, field, slip) {
            Err(number) => numbers.push(number),
            Ok(model::BLANK) if dash_refused(net, case, event, &minutes, slip) => numbers.push(19),
            Ok(_) if slip == Slip::StartIsZero && event == 0 => minutes.push(0),
            Ok(minute) => minutes.push(minute),
        }
    }
    if slip == Slip::LastMinuteNotRead {
        minutes.last_mut().into_iter().for_each(|last| *last = 0);
    }
    (numbers, minutes)
}

/// A reader that takes a `-` in some cells only; these minutes stand before it in its row.
fn dash_refused(net: &Net, case: usize, event: usize, minutes: &[u16], slip: Slip) -> bool {
    match slip {
        Slip::DashOnlyOnce => minutes.contains(&model::BLANK),
        Slip::DashNotAtTheStart => event == 0,
        Slip::DashOnlyInLabelled => net.labels.get(event).is_some_and(|label| label.is_empty()),
        Slip::DashOnlyWhereAbsent => event < net.events.len() && net.happens(case, event),
        _ => false,
    }
}

/// A reader that doesn't mind some other counts of fields.
fn mend_count(fields: &mut Vec<&[u8]>, count: usize, slip: Slip) {
    match slip {
        Slip::MoreFieldsIgnored => fields.truncate(count),
        Slip::LastCommaIgnored if fields.len() == count + 1 && fields[count].is_empty() => fields.truncate(count),
        Slip::MissingFieldIsZero if fields.len() + 1 == count => fields.push(b"0"),
        _ => {}
    }
}

/// A minute, or the number of its refusal.
fn minute(net: &Net, field: &[u8], slip: Slip) -> Result<u16, u8> {
    let text = String::from_utf8_lossy(field);
    let field = mended(&text, slip);
    let (minus, digits) = match field.strip_prefix('-') {
        Some(digits) => ("-", digits),
        None => ("", &field[..]),
    };
    if field == "-" {
        return dash(slip);
    }
    let well_formed = !digits.is_empty() && digits.bytes().all(|byte| byte.is_ascii_digit());
    let leading = digits.starts_with('0') && (digits.len() > 1 || minus == "-");
    match slip {
        _ if !well_formed && field.is_empty() && slip == Slip::EmptyIsEighteen => Err(18),
        Slip::CrIsEighteen if text.ends_with('\r') => Err(18),
        _ if !well_formed || leading => Err(19),
        Slip::NegativeIsEighteen if minus == "-" => Err(18),
        _ if minus == "-" => Err(19),
        _ => in_range(net, digits, slip),
    }
}

/// 65,535, which is printed so; or what a wrong reader makes of it.
fn dash(slip: Slip) -> Result<u16, u8> {
    match slip {
        Slip::DashRefused => Err(19),
        Slip::DashIsEighteen => Err(18),
        Slip::DashIsZero => Ok(0),
        Slip::DashIs65534 => Ok(65_534),
        _ => Ok(65_535),
    }
}

/// A field as a reader that is not strict sees it.
fn mended(field: &str, slip: Slip) -> String {
    let without_zeros = |digits: &str| match digits.trim_start_matches('0') {
        "" if !digits.is_empty() => "0".to_string(),
        rest => rest.to_string(),
    };
    let digits = field.bytes().take_while(u8::is_ascii_digit).count();
    match slip {
        Slip::LeadingZero => without_zeros(field),
        Slip::MinusZero if field == "-0" => "0".to_string(),
        Slip::Plus => field.strip_prefix('+').unwrap_or(field).to_string(),
        Slip::MinusIgnored => field.strip_prefix('-').unwrap_or(field).to_string(),
        Slip::Spaces => field.trim_matches(' ').to_string(),
        Slip::DashWithSpaces if field.trim_matches([' ', '\t', '\r']) == "-" => "-".to_string(),
        Slip::DashOfTwo if field.bytes().all(|byte| byte == b'-') && !field.is_empty() => "-".to_string(),
        Slip::EmptyIsZero if field.is_empty() => "0".to_string(),
        Slip::DigitsThenAnything if digits > 0 => field[..digits].to_string(),
        Slip::ColonIsDigit => field.replace(':', "9"),
        _ => field.to_string(),
    }
}

/// Digits without a leading zero, "however many" there are.
fn in_range(net: &Net, digits: &str, slip: Slip) -> Result<u16, u8> {
    let wrapped = |value: u128| digits.bytes().fold(0, |sum, digit| (10 * sum + u128::from(digit - b'0')) % value);
    let value: u128 = match slip {
        Slip::WrapsAt16Bits => wrapped(1 << 16),
        Slip::WrapsAt32Bits => wrapped(1 << 32),
        Slip::WrapsAt64Bits => wrapped(1 << 64),
        _ => digits.parse().unwrap_or(u128::MAX),
    };
    let most = match slip {
        Slip::Accepted65535 => 65_535,
        Slip::Refused65534 => 65_533,
        Slip::Accepted65536 => 65_536,
        Slip::AsFarAs10080 => 10_080,
        Slip::AsFarAsHorizon => net.horizon as u128,
        _ => 65_534,
    };
    match value > most {
        false if slip == Slip::Accepted65536 && value == 65_535 => Err(19),
        true if slip == Slip::Capped => Ok(65_534),
        true => Err(if slip == Slip::OverIsEighteen { 18 } else { 19 }),
        false => Ok(value as u16),
    }
}

/// "a line .. left over": the one behind the last case's.
fn left_over(cases: usize, slip: Slip) -> Fault {
    match slip {
        Slip::LeftOverIsLast => (18, cases + 1),
        Slip::LeftOverIsNineteen => (19, cases + 2),
        _ => (18, cases + 2),
    }
}

/// The fault that counts: the lowest number, and of that the first line.
fn chosen(faults: Vec<Fault>, slip: Slip) -> Option<Fault> {
    let right = *faults.iter().min()?;
    let (mut number, mut line) = match slip {
        Slip::LinesInTurn => *faults.iter().min_by_key(|fault| (fault.1, fault.0))?,
        Slip::NineteenOnTheLine if faults.contains(&(19, right.1)) => (19, right.1),
        Slip::NineteenFirst => *faults.iter().min_by_key(|fault| (-i32::from(fault.0), fault.1))?,
        Slip::LastLineAtFault => *faults.iter().filter(|fault| fault.0 == right.0).max()?,
        Slip::LastNineteen if right.0 == 19 => *faults.iter().max()?,
        _ => right,
    };
    match slip {
        Slip::NumbersExchanged => number = 37 - number,
        Slip::LineFrom0 => line = line.saturating_sub(1),
        Slip::LineLost => line = 0,
        Slip::NineteenWithoutLine if number == 19 => line = 0,
        _ => {}
    }
    Some((number, line))
}

// ---------------------------------------------------------------- By printing

/// The table of a listing that is accepted: "Any table of the right length that was printed is recovered number for
/// number, and a listing that is accepted prints back to its own bytes". So it is looked for by its digits and its lone
/// dashes alone, and accepted if it prints to this listing.
pub fn accepted_by_printing(sheet: &[u8], net: &Net, listing: &[u8]) -> Option<Vec<u16>> {
    let text = String::from_utf8_lossy(listing);
    let behind_header = text.split_once('\n').map_or("", |halves| halves.1);
    let fields = behind_header.lines().flat_map(|line| line.split(',').skip(1));
    let number = |field: &str| if field == "-" { Some(65_535) } else { field.parse().ok().filter(|&n| n < 65_535) };
    let table: Vec<u16> = fields.map_while(number).collect();
    let fits = table.len() == net.events.len() << net.signals.len();
    if fits && print_again(sheet, net, &table) == text && text.is_ascii() { Some(table) } else { None }
}

/// The listing of a table, written once more: by columns of text.
fn print_again(sheet: &[u8], net: &Net, table: &[u16]) -> String {
    let sheet = String::from_utf8_lossy(sheet);
    let mut rows = vec![vec!["case".to_string()]];
    rows[0].extend(sheet.lines().skip(2).take(net.events.len()).map(String::from));
    for (case, minutes) in table.chunks(net.events.len()).enumerate() {
        let mut marks = String::new();
        let mut left = case;
        for _ in &net.signals {
            marks.push(if left % 2 == 1 { 'T' } else { 'F' });
            left /= 2;
        }
        let mark = if marks.is_empty() { "-".to_string() } else { marks };
        let text = |&minute: &u16| minute.checked_add(1).map_or("-".to_string(), |_| minute.to_string());
        rows.push([mark].into_iter().chain(minutes.iter().map(text)).collect());
    }
    rows.iter().map(|row| row.join(",") + "\n").collect()
}
