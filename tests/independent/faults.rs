//! Wrong libraries, to see that the comparison notices them: those of document 01's last section, and some like them
//! for each call, for reactions (02, point 3), for listings read back (02, point 4), for events that only some cases
//! have (02, point 6) and for `fix` rows, which are refused or converted (02, point 7).

use crate::library::own::{
    self, handed, minutes_of, pack, refused, refused_call, returned, two_bytes, verdict, write, write_text,
};
use crate::library::{Library, Question};
use crate::converters::{self, Slip as Converted};
use crate::labels::{self, Slip as Absent};
use crate::leaps::{self, Slip as Solved};
use crate::model::{self, truth, Kind, Label, Net, Refusal, Rule, Verdict, BLANK};
use crate::readers::{self, Slip as Back};
use crate::retired::{self, Slip as Retired};
use crate::rounds::{self, Run};
use crate::sections::{self, up_to_reactions, Slip};
use std::ops::RangeInclusive;

const fn solver(solve: fn(&[u8], &mut [u8]) -> u64) -> Library {
    Library { solve, ..own::LIBRARY }
}

const fn judge(judge: fn(&[u8], &[u8]) -> u64) -> Library {
    Library { judge, ..own::LIBRARY }
}

const fn due(due: fn(Question) -> u64) -> Library {
    Library { due, ..own::LIBRARY }
}

const fn listing(listing: fn(&[u8], &[u8], &mut [u8]) -> u64) -> Library {
    Library { listing, ..own::LIBRARY }
}

const fn house(house: fn(&[u8], &mut [u8]) -> u64) -> Library {
    Library { house, ..own::LIBRARY }
}

const fn reader(read_listing: fn(&[u8], &[u8], &mut [u8]) -> u64) -> Library {
    Library { read_listing, ..own::LIBRARY }
}

const fn convert(convert: fn(&[u8], &mut [u8]) -> u64) -> Library {
    Library { convert, ..own::LIBRARY }
}

const REFUSES_ALL: Library = Library {
    solve: |_, _| refused_call(13),
    solve_within: |_, _, _| refused_call(13),
    judge: |_, _| refused_call(11),
    due: |_| refused_call(16),
    listing: |_, _, _| refused_call(12),
    house: |_, _| refused_call(12),
    read_listing: |_, _, _| refused_call(12),
    convert: |_, _| refused_call(17),
    ring: |_, _| refused_call(12),
};

pub const FAULTS: [(&str, Library); 450] = [
    ("13-at-once", solver(|sheet, table| with_solver(sheet, table, |_| None))),
    ("refuses-all", REFUSES_ALL),
    ("minute-0-throughout", solver(|sheet, table| with_solver(sheet, table, |net| model::solve(net).map(|good| vec![0; good.len()])))),
    ("success-untouched", solver(|sheet, table| own::solve(sheet, &mut table.to_vec()))),
    ("case-0-copied", solver(|sheet, table| with_solver(sheet, table, case_0_copied))),
    ("not-the-least", solver(|sheet, table| with_solver(sheet, table, one_later))),
    ("same-minute-solver", solver(|sheet, table| with_solver(sheet, table, same_minute_solve))),
    ("single-timetable", solver(|sheet, table| with_solver(sheet, table, single_timetable))),
    ("max-ends-swapped", solver(|sheet, table| with_solver(sheet, table, |net| model::solve(&ends_swapped(net))))),
    ("weights-reversed", solver(|sheet, table| with_solver(sheet, table, |net| model::solve(&weights_reversed(net))))),
    ("horizon-excluded", solver(|sheet, table| with_solver(sheet, table, horizon_excluded))),
    ("writes-behind", solver(writes_behind)),
    ("writes-odd-byte", solver(writes_odd_byte)),
    ("writes-before-13", solver(writes_before_13)),
    ("writes-before-12", solver(writes_before_12)),
    ("13-before-12", solver(thirteen_before_12)),
    ("high-byte-first", solver(high_byte_first)),
    ("half-pair-counts", solver(half_pair_counts)),
    ("passes-all", judge(|sheet, table| with_judge(sheet, table, |_, _| Verdict::Pass))),
    ("case-0-only", judge(|sheet, table| with_judge(sheet, table, case_0_only))),
    ("one-signal-judge", judge(|sheet, table| with_judge(sheet, table, |net, table| judge_with(net, table, ONE_SIGNAL)))),
    ("minute-in-r", judge(|sheet, table| with_judge(sheet, table, |net, table| judge_with(net, table, MINUTE_IN_R)))),
    ("same-minute-judge", judge(|sheet, table| with_judge(sheet, table, |net, table| judge_with(net, table, SAME_MINUTE)))),
    ("event-before-case", judge(|sheet, table| with_judge(sheet, table, |net, table| judge_with(net, table, EVENT_FIRST)))),
    ("only-later-cases", judge(|sheet, table| with_judge(sheet, table, |net, table| judge_with(net, table, LATER_CASES)))),
    ("start-not-asked", judge(|sheet, table| with_judge(sheet, table, start_not_asked))),
    ("horizon-is-late", judge(|sheet, table| with_judge(sheet, table, horizon_is_late))),
    ("minutes-are-signed", judge(|sheet, table| with_judge(sheet, table, minutes_are_signed))),
    ("rules-from-1", judge(|sheet, table| with_judge(sheet, table, rules_from_1))),
    ("last-byte-not-0", judge(|sheet, table| own::judge(sheet, table) | 1 << 56)),
    ("rule-before-case", judge(|sheet, table| with_judge(sheet, table, rule_before_case))),
    ("longer-table-judged", judge(longer_table_judged)),
    ("odd-byte-ignored", judge(|sheet, table| own::judge(sheet, &table[..table.len() & !1]))),
    ("odd-before-sheet", judge(|sheet, table| if table.len() % 2 == 1 { refused_call(11) } else { own::judge(sheet, table) })),
    ("invented-line", judge(|sheet, table| with_refusal(sheet, table, |refusal| refusal.line = 1))),
    ("next-line", judge(|sheet, table| with_refusal(sheet, table, |refusal| refusal.line += 1))),
    ("self-rule-refused", judge(self_rule_refused)),
    ("wraps-at-2-64", judge(|sheet, table| own::judge(&replaced(sheet, b"18446744073709551621", b"5"), table))),
    ("minus-0-accepted", judge(|sheet, table| own::judge(&replaced(sheet, b",-0", b",0"), table))),
    ("cr-ignored", judge(|sheet, table| own::judge(&replaced(sheet, b"\r", b""), table))),
    ("last-feed-missing", judge(|sheet, table| own::judge(&with_last_feed(sheet), table))),
    ("empty-lines-skipped", judge(|sheet, table| own::judge(&replaced(sheet, b"\n\n", b"\n"), table))),
    ("4097-bytes-accepted", judge(|sheet, table| own::judge(if sheet.len() == 4097 { &sheet[..4096] } else { sheet }, table))),
    ("upper-case-names", judge(|sheet, table| own::judge(&sheet.to_ascii_lowercase(), table))),
    ("due-truth-inverted", due(|asked| with_list(asked, |_, list| inverted(list)))),
    ("due-letter-twice", due(|asked| with_list(asked, |_, list| without_doubles(list)))),
    ("due-last-truth-counts", due(|asked| with_list(asked, |_, list| last_truths(list)))),
    ("due-undefined-ignored", due(|asked| with_list(asked, without_undefined))),
    ("due-heard-in-its-minute", due(|asked| with_player(asked, Player { heard: |known, at| known - at < 2, ..PLAYER }))),
    ("due-heard-a-minute-late", due(|asked| with_player(asked, Player { heard: |known, at| known < at, ..PLAYER }))),
    ("due-a-minute-late", due(|asked| with_player(asked, Player { due: |at, minute| at + 1 == minute, ..PLAYER }))),
    ("due-until-the-minute", due(|asked| with_player(asked, Player { due: |at, minute| at <= minute, ..PLAYER }))),
    ("due-in-case-0", due(|asked| with_player(asked, Player { answers: |_, _| 0, ..PLAYER }))),
    ("due-in-the-next-case", due(|asked| with_player(asked, Player { answers: |case, cases| (case + 1) % cases, ..PLAYER }))),
    ("due-part-is-enough", due(|asked| with_player(asked, Player { fits: |history, list| part_of(list, history), ..PLAYER }))),
    ("due-more-is-enough", due(|asked| with_player(asked, Player { fits: |history, list| part_of(history, list), ..PLAYER }))),
    ("due-order-counts", due(|asked| with_player(asked, Player { fits: |history, list| history == list, ..PLAYER }))),
    ("due-truths-not-compared", due(|asked| with_player(asked, Player { fits: same_letters, ..PLAYER }))),
    ("due-dash-before-letters", due(|asked| with_text(asked, asked.heard.strip_prefix(b"-").unwrap_or(asked.heard)))),
    ("due-empty-refused", due(|asked| with_text(asked, if asked.heard.is_empty() { b"!" } else { asked.heard }))),
    ("due-dash-refused", due(|asked| with_text(asked, if asked.heard == b"-" { b"!" } else { asked.heard }))),
    ("due-upper-case", due(|asked| with_text(asked, &asked.heard.to_ascii_lowercase()))),
    ("due-spaces-ignored", due(|asked| with_text(asked, &replaced(asked.heard, b" ", b"")))),
    ("due-last-feed-ignored", due(|asked| with_text(asked, asked.heard.strip_suffix(b"\n").unwrap_or(asked.heard)))),
    ("due-nul-ends-the-text", due(|asked| with_text(asked, asked.heard.split(|&byte| byte == 0).next().unwrap_or(b"")))),
    ("due-not-not", due(|asked| with_text(asked, &replaced(asked.heard, b"!!", b"")))),
    ("due-last-not-ignored", due(|asked| with_text(asked, asked.heard.strip_suffix(b"!").unwrap_or(asked.heard)))),
    ("due-text-length-of-a-byte", due(|asked| with_text(asked, &asked.heard[..asked.heard.len() % 256]))),
    ("due-15-and-16-exchanged", due(|asked| renumbered(own::due(asked), &[(15, 16), (16, 15)]))),
    ("due-16-for-15", due(|asked| renumbered(own::due(asked), &[(15, 16)]))),
    ("due-16-with-a-line", due(|asked| renumbered(own::due(asked), &[(16, 256 + 16)]))),
    ("due-nothing-is-16", due(|asked| renumbered(own::due(asked), &[(0, 16)]))),
    ("due-14-not-asked", due(own::play)),
    ("due-14-behind-15", due(|asked| if own::play(asked) == 15 { 15 } else { own::due(asked) })),
    ("due-11-behind-14", due(|asked| before_11(asked, 14))),
    ("due-11-behind-15", due(|asked| before_11(asked, 15))),
    ("due-15-before-sheet", due(|asked| if model::heard(asked.heard).is_none() { 15 } else { own::due(asked) })),
    ("due-high-byte-first", due(|asked| own::due(Question { table: &each_minute(asked.table, u16::swap_bytes), ..asked }))),
    ("due-odd-byte-ignored", due(|asked| own::due(Question { table: whole_pairs(asked.table), ..asked }))),
    ("due-longer-table-played", due(|asked| own::due(Question { table: cells_of(asked.sheet, asked.table), ..asked }))),
    ("due-minute-of-a-byte", due(|asked| own::due(Question { minute: asked.minute % 256, ..asked }))),
    ("due-8-events", due(|asked| revalued(own::due(asked), |events| events % 256))),
    ("due-bits-from-1", due(|asked| revalued(own::due(asked), |events| events << 1))),
    ("listing-of-good-tables", listing(listing_of_good_tables)),
    ("listing-12-before-11", listing(room_before_length)),
    ("listing-odd-byte-ignored", listing(|sheet, table, out| own::listing(sheet, whole_pairs(table), out))),
    ("listing-of-longer-table", listing(|sheet, table, out| own::listing(sheet, cells_of(sheet, table), out))),
    ("listing-high-byte-first", listing(|sheet, table, out| own::listing(sheet, &each_minute(table, u16::swap_bytes), out))),
    ("listing-four-digits", listing(|sheet, table, out| own::listing(sheet, &each_minute(table, |minute| minute % 10_000), out))),
    ("listing-10080-at-most", listing(|sheet, table, out| own::listing(sheet, &each_minute(table, |minute| minute.min(10_080)), out))),
    ("listing-byte-behind", listing(|sheet, table, out| byte_behind(own::listing(sheet, table, out), out))),
    ("listing-out-altered-on-12", listing(|sheet, table, out| altered_on(12, own::listing(sheet, table, out), out))),
    ("listing-out-altered-on-11", listing(|sheet, table, out| altered_on(11, own::listing(sheet, table, out), out))),
    ("listing-as-far-as-it-fits", listing(as_far_as_it_fits)),
    ("listing-untouched", listing(|sheet, table, out| own::listing(sheet, table, &mut out.to_vec()))),
    ("listing-count-one-more", listing(|sheet, table, out| revalued(own::listing(sheet, table, out), |count| count + 1))),
    ("listing-count-of-a-byte", listing(|sheet, table, out| revalued(own::listing(sheet, table, out), |count| count % 256))),
    ("listing-needs-a-byte-more", listing(|sheet, table, out| needing(out, |length| length + 1, |out| own::listing(sheet, table, out)))),
    ("listing-needs-the-longest", listing(|sheet, table, out| needing(out, |_| LONGEST, |out| own::listing(sheet, table, out)))),
    ("listing-not-the-longest", listing(not_the_longest)),
    ("house-17-at-64-rows", house(|sheet, out| if has_64_rows(sheet) { 17 } else { own::house(sheet, out) })),
    ("house-as-typed", house(|sheet, out| write_text(model::house(sheet).map(|_| sheet.to_vec()), out))),
    ("house-byte-behind", house(|sheet, out| byte_behind(own::house(sheet, out), out))),
    ("house-out-altered-on-12", house(|sheet, out| altered_on(12, own::house(sheet, out), out))),
    ("house-untouched", house(|sheet, out| own::house(sheet, &mut out.to_vec()))),
    ("house-count-one-less", house(|sheet, out| revalued(own::house(sheet, out), |count| count - 1))),
    ("house-needs-a-byte-more", house(|sheet, out| needing(out, |length| length + 1, |out| own::house(sheet, out)))),
    ("house-needs-the-sheet's-length", house(|sheet, out| needing(out, |_| sheet.len(), |out| own::house(sheet, out)))),
    ("house-line-lost", house(|sheet, out| write_text(model::house(sheet).map_err(|refusal| Refusal { line: 0, ..refusal }), out))),
    ("reaction-0-accepted", judge(|sheet, table| read_by(sheet, table, Slip::ZeroAccepted))),
    ("reaction-60-refused", judge(|sheet, table| read_by(sheet, table, Slip::SixtyRefused))),
    ("reaction-61-accepted", judge(|sheet, table| read_by(sheet, table, Slip::SixtyOneAccepted))),
    ("reaction-of-a-byte", judge(|sheet, table| read_by(sheet, table, Slip::MinutesOfAByte))),
    ("reactions-first-line-counts", judge(|sheet, table| read_by(sheet, table, Slip::FirstLineCounts))),
    ("reactions-last-line-counts", judge(|sheet, table| read_by(sheet, table, Slip::LastLineCounts))),
    ("reactions-7-and-8-exchanged", judge(|sheet, table| read_by(sheet, table, Slip::SevenForEight))),
    ("reactions-6-before-5", judge(|sheet, table| read_by(sheet, table, Slip::SixBeforeFive))),
    ("reactions-7-before-5", judge(|sheet, table| read_by(sheet, table, Slip::SevenBeforeFive))),
    ("reactions-first-byte-is-letter", judge(|sheet, table| read_by(sheet, table, Slip::FirstByteIsLetter))),
    ("reactions-undefined-ignored", judge(|sheet, table| read_by(sheet, table, Slip::UndefinedIgnored))),
    ("reactions-third-field-ignored", judge(|sheet, table| read_by(sheet, table, Slip::ThirdFieldIgnored))),
    ("reactions-5-lines", judge(|sheet, table| read_by(sheet, table, Slip::FiveLines))),
    ("reactions-as-many-as-signals", judge(|sheet, table| read_by(sheet, table, Slip::AsManyAsSignals))),
    ("reactions-0-refused", judge(|sheet, table| read_by(sheet, table, Slip::NoLinesRefused))),
    ("reactions-not-read", judge(|sheet, table| read_by(sheet, table, Slip::TenBehindRules))),
    ("reactions-lone-feed-accepted", judge(|sheet, table| read_by(sheet, table, Slip::LoneFeedAccepted))),
    ("reactions-lone-feed-is-10", judge(|sheet, table| read_by(sheet, table, Slip::LoneFeedIsTen))),
    ("reactions-end-not-asked", judge(|sheet, table| read_by(sheet, table, Slip::EndNotAsked))),
    ("reactions-feed-behind-accepted", judge(|sheet, table| read_by(sheet, table, Slip::FeedBehindAccepted))),
    ("reactions-2-behind-them", judge(|sheet, table| read_by(sheet, table, Slip::TwoBehind))),
    ("reactions-10-a-line-before", judge(|sheet, table| read_by(sheet, table, Slip::TenALineBefore))),
    ("reactions-twice-accepted", judge(|sheet, table| read_by(sheet, table, Slip::TwiceAccepted))),
    ("cases-not-read", judge(|sheet, table| read_by(sheet, table, Slip::TenBehindReactions))),
    ("cases-behind-the-rules", judge(|sheet, table| read_by(sheet, table, Slip::CasesBehindRules))),
    ("cases-lone-feed-accepted", judge(|sheet, table| read_by(sheet, table, Slip::CasesFeedAccepted))),
    ("cases-lone-feed-is-10", judge(|sheet, table| read_by(sheet, table, Slip::CasesFeedIsTen))),
    ("cases-one-more", judge(|sheet, table| read_by(sheet, table, Slip::CasesOneMore))),
    ("cases-one-less", judge(|sheet, table| read_by(sheet, table, Slip::CasesOneLess))),
    ("cases-as-far-as-16", judge(|sheet, table| read_by(sheet, table, Slip::CasesOf16))),
    ("cases-0-refused", judge(|sheet, table| read_by(sheet, table, Slip::NoCasesRefused))),
    ("cases-first-line-counts", judge(|sheet, table| read_by(sheet, table, Slip::FirstLabelCounts))),
    ("cases-last-line-counts", judge(|sheet, table| read_by(sheet, table, Slip::LastLabelCounts))),
    ("cases-dash-not-counted", judge(|sheet, table| read_by(sheet, table, Slip::DashNotCounted))),
    ("cases-7-and-8-exchanged", judge(|sheet, table| read_by(sheet, table, Slip::SevenEightExchanged))),
    ("cases-8-before-7", judge(|sheet, table| read_by(sheet, table, Slip::EightBeforeSeven))),
    ("cases-7-before-6", judge(|sheet, table| read_by(sheet, table, Slip::SevenBeforeSix))),
    ("cases-9-before-8", judge(|sheet, table| read_by(sheet, table, Slip::NineBeforeEight))),
    ("cases-9-before-7", judge(|sheet, table| read_by(sheet, table, Slip::NineBeforeSeven))),
    ("cases-letter-twice-accepted", judge(|sheet, table| read_by(sheet, table, Slip::LetterTwiceAccepted))),
    ("cases-empty-label-is-dash", judge(|sheet, table| read_by(sheet, table, Slip::EmptyLabelIsDash))),
    ("cases-dash-ill-formed", judge(|sheet, table| read_by(sheet, table, Slip::DashIllFormed))),
    ("cases-unknown-event-ignored", judge(|sheet, table| read_by(sheet, table, Slip::UnknownEventIgnored))),
    ("cases-unknown-letter-ignored", judge(|sheet, table| read_by(sheet, table, Slip::UnknownLetterIgnored))),
    ("cases-third-field-ignored", judge(|sheet, table| read_by(sheet, table, Slip::MoreFieldsIgnored))),
    ("cases-name-begins", judge(|sheet, table| read_by(sheet, table, Slip::NameBegins))),
    ("cases-label-of-the-next", judge(|sheet, table| read_by(sheet, table, Slip::LabelOfTheNext))),
    ("20-not-tried", judge(|sheet, table| read_by(sheet, table, Slip::TwentyNotTried))),
    ("20-for-dash", judge(|sheet, table| read_by(sheet, table, Slip::TwentyForDash))),
    ("20-at-its-line", judge(|sheet, table| read_by(sheet, table, Slip::TwentyAtItsLine))),
    ("20-at-the-heading", judge(|sheet, table| read_by(sheet, table, Slip::TwentyAtTheHeading))),
    ("20-without-line", judge(|sheet, table| read_by(sheet, table, Slip::TwentyWithoutLine))),
    ("20-behind-10", judge(|sheet, table| read_by(sheet, table, Slip::TwentyBehindTheEnd))),
    ("20-at-once", judge(|sheet, table| read_by(sheet, table, Slip::TwentyAtOnce))),
    ("20-of-the-last-event", judge(|sheet, table| read_by(sheet, table, Slip::TwentyForLast))),
    ("21-before-20", judge(|sheet, table| read_by(sheet, table, Slip::TwentyOneFirst))),
    ("21-not-tried", judge(|sheet, table| read_by(sheet, table, Slip::TwentyOneNotTried))),
    ("21-of-events-only", judge(|sheet, table| read_by(sheet, table, Slip::OfEventsOnly))),
    ("21-of-rules-only", judge(|sheet, table| read_by(sheet, table, Slip::OfRulesOnly))),
    ("21-of-listed-only", judge(|sheet, table| read_by(sheet, table, Slip::OfListedOnly))),
    ("21-as-lines-are-read", judge(|sheet, table| read_by(sheet, table, Slip::SoFarOnly))),
    ("21-signs-not-asked", judge(|sheet, table| read_by(sheet, table, Slip::SignsNotAsked))),
    ("21-first-letter-only", judge(|sheet, table| read_by(sheet, table, Slip::FirstLetterOnly))),
    ("21-own-signal-refused", judge(|sheet, table| read_by(sheet, table, Slip::OwnSignalRefused))),
    ("21-turned-about", judge(|sheet, table| read_by(sheet, table, Slip::TurnedAbout))),
    ("21-of-short-labels-only", judge(|sheet, table| read_by(sheet, table, Slip::OneStepLess))),
    ("21-at-its-line", judge(|sheet, table| read_by(sheet, table, Slip::TwentyOneAtItsLine))),
    ("21-without-line", judge(|sheet, table| read_by(sheet, table, Slip::TwentyOneWithoutLine))),
    ("21-at-the-heading", judge(|sheet, table| read_by(sheet, table, Slip::TwentyOneAtTheHeading))),
    ("21-behind-10", judge(|sheet, table| read_by(sheet, table, Slip::TenBeforeTwentyOne))),
    ("21-is-8", judge(|sheet, table| read_by(sheet, table, Slip::TwentyOneIsEight))),
    ("21-for-a-rule-that-covers-nothing", judge(|sheet, table| read_by(sheet, table, Slip::ContradictionRefused))),
    ("reactions-before-rules", judge(|sheet, table| own::judge(&section_moved(sheet), table))),
    ("solver-reactions-ignored", solver(|sheet, table| solved_with(sheet, table, IGNORED))),
    ("solver-reaction-late", solver(|sheet, table| solved_with(sheet, table, LATE))),
    ("solver-reaction-early", solver(|sheet, table| solved_with(sheet, table, EARLY))),
    ("solver-reaction-of-the-next", solver(|sheet, table| solved_with(sheet, table, NEXT))),
    ("solver-longest-for-all", solver(|sheet, table| solved_with(sheet, table, LONGEST_OF_ALL))),
    ("solver-reactions-by-place", solver(|sheet, table| own::solve(&by_place(sheet), table))),
    ("judge-reactions-ignored", judge(|sheet, table| judged_with(sheet, table, IGNORED))),
    ("judge-reaction-late", judge(|sheet, table| judged_with(sheet, table, LATE))),
    ("judge-reaction-early", judge(|sheet, table| judged_with(sheet, table, EARLY))),
    ("judge-reaction-of-the-next", judge(|sheet, table| judged_with(sheet, table, NEXT))),
    ("judge-longest-for-all", judge(|sheet, table| judged_with(sheet, table, LONGEST_OF_ALL))),
    ("judge-reactions-by-place", judge(|sheet, table| own::judge(&by_place(sheet), table))),
    ("due-reactions-ignored", due(|asked| with_reactions(asked, IGNORED))),
    ("due-reaction-late", due(|asked| with_reactions(asked, LATE))),
    ("due-reaction-early", due(|asked| with_reactions(asked, EARLY))),
    ("due-reaction-of-the-next", due(|asked| with_reactions(asked, NEXT))),
    ("due-longest-for-all", due(|asked| with_reactions(asked, LONGEST_OF_ALL))),
    ("due-reactions-by-place", due(|asked| own::due(Question { sheet: &by_place(asked.sheet), ..asked }))),
    ("due-judged-without-reactions", due(judged_without_reactions)),
    ("house-reactions-dropped", house(|sheet, out| write_text(model::house(sheet).map(without_reactions), out))),
    ("house-room-without-reactions", house(room_without_reactions)),
    ("judge-filled-not-asked", judge(|sheet, table| judged_as(sheet, table, Absent::FilledNotAsked))),
    ("judge-filled-with-0-accepted", judge(|sheet, table| judged_as(sheet, table, Absent::ZeroAccepted))),
    ("judge-blank-not-asked", judge(|sheet, table| judged_as(sheet, table, Absent::BlankNotAsked))),
    ("judge-labels-ignored", judge(|sheet, table| judged_as(sheet, table, Absent::LabelsIgnored))),
    ("judge-wait-not-asked", judge(|sheet, table| judged_as(sheet, table, Absent::WaitNotAsked))),
    ("judge-wait-of-one", judge(|sheet, table| judged_as(sheet, table, Absent::WaitOfOne))),
    ("judge-wait-a-minute-less", judge(|sheet, table| judged_as(sheet, table, Absent::WaitAMinuteLess))),
    ("judge-wait-a-minute-more", judge(|sheet, table| judged_as(sheet, table, Absent::WaitAMinuteMore))),
    ("judge-wait-in-its-minute", judge(|sheet, table| judged_as(sheet, table, Absent::WaitInItsMinute))),
    ("judge-wait-for-true-letters", judge(|sheet, table| judged_as(sheet, table, Absent::WaitForTrue))),
    ("judge-wait-for-false-letters", judge(|sheet, table| judged_as(sheet, table, Absent::WaitForFalse))),
    ("judge-wait-for-the-first-letter", judge(|sheet, table| judged_as(sheet, table, Absent::WaitForFirst))),
    ("judge-wait-not-for-blanks", judge(|sheet, table| judged_as(sheet, table, Absent::WaitNotForBlanks))),
    ("judge-wait-where-absent-too", judge(|sheet, table| judged_as(sheet, table, Absent::WaitWhereAbsent))),
    ("judge-waits-behind-the-rest", judge(|sheet, table| judged_as(sheet, table, Absent::WaitsLast))),
    ("judge-blanks-before-the-rest", judge(|sheet, table| judged_as(sheet, table, Absent::BlanksFirst))),
    ("judge-wait-is-a-rule", judge(|sheet, table| judged_as(sheet, table, Absent::WaitIsRule))),
    ("judge-rule-by-label-only", judge(|sheet, table| judged_as(sheet, table, Absent::RuleByLabel))),
    ("judge-rule-if-from-happens", judge(|sheet, table| judged_as(sheet, table, Absent::RuleIfFrom))),
    ("judge-rule-if-to-happens", judge(|sheet, table| judged_as(sheet, table, Absent::RuleIfTo))),
    ("judge-rule-if-either-happens", judge(|sheet, table| judged_as(sheet, table, Absent::RuleIfEither))),
    ("judge-blank-is-0-in-a-rule", judge(|sheet, table| judged_as(sheet, table, Absent::BlankIsZero))),
    ("judge-not-given-counts", judge(|sheet, table| judged_as(sheet, table, Absent::NotGivenCounts))),
    ("judge-one-case-is-unheard", judge(|sheet, table| judged_as(sheet, table, Absent::OneCaseUnheard))),
    ("judge-point-3-of-unlabelled-only", judge(|sheet, table| judged_as(sheet, table, Absent::UnlabelledOnly))),
    ("solver-labels-set-no-waits", solver(|sheet, table| solved_as(sheet, table, Solved::NoWaits))),
    ("solver-label-waits-of-one", solver(|sheet, table| solved_as(sheet, table, Solved::WaitsOfOne))),
    ("solver-label-waits-for-true-letters", solver(|sheet, table| solved_as(sheet, table, Solved::WaitsForTrue))),
    ("solver-label-waits-for-the-first-letter", solver(|sheet, table| solved_as(sheet, table, Solved::WaitsForFirst))),
    ("solver-rule-of-an-absent-event", solver(|sheet, table| solved_as(sheet, table, Solved::RulesOfLabelOnly))),
    ("solver-absent-cell-raised", solver(|sheet, table| solved_as(sheet, table, Solved::AbsentRaised))),
    ("solver-blank-cells-are-0", solver(|sheet, table| solved_as(sheet, table, Solved::BlanksZero))),
    ("solver-labels-ignored", solver(|sheet, table| with_solver(sheet, table, labels_ignored))),
    ("solver-labels-at-the-end", solver(|sheet, table| with_solver(sheet, table, blanked_at_the_end))),
    ("solver-blank-is-65534", solver(|sheet, table| with_solver(sheet, table, |net| blanks_as(net, 65_534)))),
    ("solver-blank-is-the-horizon", solver(|sheet, table| with_solver(sheet, table, blanks_as_horizon))),
    ("solver-13-where-labelled", solver(|sheet, table| with_solver(sheet, table, unlabelled_only))),
    ("solver-label-of-the-first-letter", solver(|sheet, table| with_solver(sheet, table, first_letter))),
    ("due-blank-at-65535", due(|asked| with_absent(asked, every_event))),
    ("due-absent-signal-heard-at-once", due(|asked| with_absent(asked, blanks_at_0))),
    ("due-absent-signal-is-false", due(absent_signal_is_false)),
    ("due-16-at-65535", due(|asked| if asked.minute == BLANK { own::due(asked).max(16) } else { own::due(asked) })),
    ("due-labelled-not-played", due(unplayed)),
    ("listing-blank-in-digits", listing(|sheet, table, out| listed_as(sheet, table, out, |_, _, _| "65535"))),
    ("listing-blank-is-empty", listing(|sheet, table, out| listed_as(sheet, table, out, |_, _, _| ""))),
    ("listing-blank-is-0", listing(|sheet, table, out| listed_as(sheet, table, out, |_, _, _| "0"))),
    ("listing-blank-of-two", listing(|sheet, table, out| listed_as(sheet, table, out, |_, _, _| "--"))),
    ("listing-dash-only-where-absent", listing(|sheet, table, out| listed_as(sheet, table, out, dash_where_absent))),
    ("listing-dash-only-in-labelled", listing(|sheet, table, out| listed_as(sheet, table, out, dash_in_labelled))),
    ("listing-dash-where-absent", listing(dash_where_filled)),
    ("listing-of-odd-minutes", listing(|sheet, table, out| own::listing(sheet, &each_minute(table, |it| it | 1), out))),
    ("listing-refused-over-blanks", listing(refused_over_blanks)),
    ("house-labels-dropped", house(|sheet, out| write_text(model::house(sheet).map(without_label_lines), out))),
    ("house-room-without-labels", house(room_without_labels)),
    ("22-before-2", judge(|sheet, table| rows_read(sheet, table, Retired::BeforeTwo))),
    ("22-before-3", judge(|sheet, table| rows_read(sheet, table, Retired::BeforeThree))),
    ("22-behind-4", judge(|sheet, table| rows_read(sheet, table, Retired::BehindFour))),
    ("22-behind-5", judge(|sheet, table| rows_read(sheet, table, Retired::BehindFive))),
    ("22-behind-6", judge(|sheet, table| rows_read(sheet, table, Retired::BehindSix))),
    ("22-behind-8", judge(|sheet, table| rows_read(sheet, table, Retired::BehindEight))),
    ("22-behind-9", judge(|sheet, table| rows_read(sheet, table, Retired::BehindNine))),
    ("22-is-3", judge(|sheet, table| rows_read(sheet, table, Retired::IsThree))),
    ("22-for-every-other-kind", judge(|sheet, table| rows_read(sheet, table, Retired::EveryOtherKind))),
    ("22-for-a-kind-that-begins-so", judge(|sheet, table| rows_read(sheet, table, Retired::KindBegins))),
    ("22-for-capitals", judge(|sheet, table| rows_read(sheet, table, Retired::AnyCapitals))),
    ("22-for-a-space-before-it", judge(|sheet, table| rows_read(sheet, table, Retired::SpacesBefore))),
    ("22-without-line", judge(|sheet, table| rows_read(sheet, table, Retired::WithoutLine))),
    ("22-a-line-before", judge(|sheet, table| rows_read(sheet, table, Retired::LineBefore))),
    ("22-a-line-behind", judge(|sheet, table| rows_read(sheet, table, Retired::LineBehind))),
    ("22-at-the-heading", judge(|sheet, table| rows_read(sheet, table, Retired::LineOfTheHeading))),
    ("22-with-its-place-among-the-rows", judge(|sheet, table| rows_read(sheet, table, Retired::PlaceOfTheRow))),
    ("22-of-the-last-of-all", judge(|sheet, table| rows_read(sheet, table, Retired::LastOfAll))),
    ("22-before-other-rows", judge(|sheet, table| rows_read(sheet, table, Retired::BeforeOtherRows))),
    ("22-behind-other-rows", judge(|sheet, table| rows_read(sheet, table, Retired::BehindOtherRows))),
    ("22-behind-the-sheet", judge(|sheet, table| rows_read(sheet, table, Retired::BehindTheSheet))),
    ("22-in-the-first-row-only", judge(|sheet, table| rows_read(sheet, table, Retired::FirstRowOnly))),
    ("22-not-in-the-last-row", judge(|sheet, table| rows_read(sheet, table, Retired::NotInTheLastRow))),
    ("judge-fix-is-max", judge(|sheet, table| rows_read(sheet, table, Retired::AsMax))),
    ("judge-fix-is-min", judge(|sheet, table| rows_read(sheet, table, Retired::AsMin))),
    ("judge-fix-left-out", judge(|sheet, table| rows_read(sheet, table, Retired::LeftOut))),
    ("judge-fix-is-read", judge(|sheet, table| rows_read(sheet, table, Retired::AsBoth))),
    ("solver-fix-is-read", solver(|sheet, table| own::solve(&converted(sheet), table))),
    ("due-fix-is-read", due(|asked| own::due(Question { sheet: &converted(asked.sheet), ..asked }))),
    ("listing-fix-is-read", listing(|sheet, table, out| own::listing(&converted(sheet), table, out))),
    ("house-fix-is-read", house(|sheet, out| own::house(&converted(sheet), out))),
    ("read-fix-is-read", reader(|sheet, text, room| own::read_listing(&converted(sheet), text, room))),
    ("solver-22-without-line", solver(|sheet, table| without_line(22, own::solve(sheet, table)))),
    ("due-22-without-line", due(|asked| without_line(22, own::due(asked)))),
    ("listing-22-without-line", listing(|sheet, table, out| without_line(22, own::listing(sheet, table, out)))),
    ("house-22-without-line", house(|sheet, out| without_line(22, own::house(sheet, out)))),
    ("read-22-without-line", reader(|sheet, text, room| without_line(22, own::read_listing(sheet, text, room)))),
    ("convert-min-left-out", convert(|sheet, out| converted_with(sheet, out, Converted::MinLeftOut))),
    ("convert-both-max", convert(|sheet, out| converted_with(sheet, out, Converted::BothMax))),
    ("convert-min-first", convert(|sheet, out| converted_with(sheet, out, Converted::MinFirst))),
    ("convert-min-negated", convert(|sheet, out| converted_with(sheet, out, Converted::MinNegated))),
    ("convert-min-at-the-end", convert(|sheet, out| converted_with(sheet, out, Converted::MinAtTheEnd))),
    ("convert-nothing-done", convert(|sheet, out| converted_with(sheet, out, Converted::NothingDone))),
    ("convert-only-the-first", convert(|sheet, out| converted_with(sheet, out, Converted::OnlyFirst))),
    ("convert-last-missed", convert(|sheet, out| converted_with(sheet, out, Converted::LastMissed))),
    ("convert-count-kept", convert(|sheet, out| converted_with(sheet, out, Converted::CountKept))),
    ("convert-cases-too", convert(|sheet, out| converted_with(sheet, out, Converted::CasesConverted))),
    ("convert-reactions-dropped", convert(|sheet, out| converted_with(sheet, out, Converted::ReactionsDropped))),
    ("convert-labels-dropped", convert(|sheet, out| converted_with(sheet, out, Converted::CasesDropped))),
    ("convert-64-refused", convert(|sheet, out| converted_with(sheet, out, Converted::Refused64))),
    ("convert-65-accepted", convert(|sheet, out| converted_with(sheet, out, Converted::Passed65))),
    ("convert-17-of-rules", convert(|sheet, out| converted_with(sheet, out, Converted::FixesOnce))),
    ("convert-17-with-a-line", convert(|sheet, out| converted_with(sheet, out, Converted::SeventeenWithLine))),
    ("convert-17-before-the-sheet", convert(|sheet, out| converted_with(sheet, out, Converted::SeventeenFirst))),
    ("convert-12-for-17", convert(|sheet, out| converted_with(sheet, out, Converted::SeventeenIs12))),
    ("convert-22", convert(|sheet, out| converted_with(sheet, out, Converted::TwentyTwo))),
    ("convert-22-on-a-row-at-fault", convert(|sheet, out| converted_with(sheet, out, Converted::TwentyTwoOnTheRow))),
    ("convert-22-before-a-fault", convert(|sheet, out| converted_with(sheet, out, Converted::TwentyTwoBefore))),
    ("convert-line-lost", convert(|sheet, out| converted_with(sheet, out, Converted::LineLost))),
    ("convert-line-as-converted", convert(|sheet, out| converted_with(sheet, out, Converted::LineAsConverted))),
    ("convert-17-behind-12", convert(room_before_17)),
    ("convert-12-before-sheet", convert(|sheet, out| if out.is_empty() { 12 } else { own::convert(sheet, out) })),
    ("convert-12-with-a-line", convert(|sheet, out| renumbered(own::convert(sheet, out), &[(12, 256 + 12)]))),
    ("convert-room-of-the-sheet", convert(|sheet, out| roomy(sheet, out, sheet.len()))),
    ("convert-room-without-a-digit", convert(|sheet, out| roomy(sheet, out, without_a_digit(sheet)))),
    ("convert-needs-a-byte-more", convert(|sheet, out| needing(out, |need| need + 1, |it| own::convert(sheet, it)))),
    ("convert-needs-4096", convert(|sheet, out| needing(out, |_| 4096, |it| own::convert(sheet, it)))),
    ("convert-as-far-as-it-fits", convert(converted_as_far_as_it_fits)),
    ("convert-written-where-17", convert(written_where_17)),
    ("convert-written-where-refused", convert(written_where_refused)),
    ("convert-altered-on-12", convert(|sheet, out| altered_on(12, own::convert(sheet, out), out))),
    ("convert-altered-on-17", convert(|sheet, out| altered_on(17, own::convert(sheet, out), out))),
    ("convert-byte-behind", convert(|sheet, out| byte_behind(own::convert(sheet, out), out))),
    ("convert-untouched", convert(|sheet, out| own::convert(sheet, &mut out.to_vec()))),
    ("convert-unchanged-not-written", convert(unchanged_not_written)),
    ("convert-unchanged-counts-0", convert(unchanged_counts_0)),
    ("convert-count-one-less", convert(|sheet, out| revalued(own::convert(sheet, out), |count| count - 1))),
    ("convert-count-of-a-byte", convert(|sheet, out| revalued(own::convert(sheet, out), |count| count % 256))),
    ("convert-count-of-the-sheet", convert(count_of_the_sheet)),
    ("convert-count-on-17", convert(count_on_17)),
    ("convert-rows-beside", convert(rows_beside)),
    ("read-18-and-19-exchanged", reader(|sheet, text, room| read_back(sheet, text, room, Back::NumbersExchanged))),
    ("read-lines-in-turn", reader(|sheet, text, room| read_back(sheet, text, room, Back::LinesInTurn))),
    ("read-19-before-18-on-a-line", reader(|sheet, text, room| read_back(sheet, text, room, Back::NineteenOnTheLine))),
    ("read-19-before-18", reader(|sheet, text, room| read_back(sheet, text, room, Back::NineteenFirst))),
    ("read-last-line-at-fault", reader(|sheet, text, room| read_back(sheet, text, room, Back::LastLineAtFault))),
    ("read-last-19-told", reader(|sheet, text, room| read_back(sheet, text, room, Back::LastNineteen))),
    ("read-line-from-0", reader(|sheet, text, room| read_back(sheet, text, room, Back::LineFrom0))),
    ("read-line-lost", reader(|sheet, text, room| read_back(sheet, text, room, Back::LineLost))),
    ("read-19-without-line", reader(|sheet, text, room| read_back(sheet, text, room, Back::NineteenWithoutLine))),
    ("read-missing-is-last", reader(|sheet, text, room| read_back(sheet, text, room, Back::MissingIsLast))),
    ("read-left-over-is-last", reader(|sheet, text, room| read_back(sheet, text, room, Back::LeftOverIsLast))),
    ("read-left-over-is-19", reader(|sheet, text, room| read_back(sheet, text, room, Back::LeftOverIsNineteen))),
    ("read-4096-refused", reader(|sheet, text, room| read_back(sheet, text, room, Back::Refused4096))),
    ("read-4097-accepted", reader(|sheet, text, room| read_back(sheet, text, room, Back::Accepted4097))),
    ("read-length-not-asked", reader(|sheet, text, room| read_back(sheet, text, room, Back::LengthNotAsked))),
    ("read-long-without-line", reader(|sheet, text, room| read_back(sheet, text, room, Back::LongWithoutLine))),
    ("read-only-4096-seen", reader(|sheet, text, room| read_back(sheet, text, room, Back::Only4096Seen))),
    ("read-length-of-16-bits", reader(|sheet, text, room| read_back(sheet, text, room, Back::LengthOf16Bits))),
    ("read-header-not-read", reader(|sheet, text, room| read_back(sheet, text, room, Back::HeaderNotRead))),
    ("read-names-not-compared", reader(|sheet, text, room| read_back(sheet, text, room, Back::NamesNotCompared))),
    ("read-names-in-any-order", reader(|sheet, text, room| read_back(sheet, text, room, Back::NamesInAnyOrder))),
    ("read-names-may-go-on", reader(|sheet, text, room| read_back(sheet, text, room, Back::NamesMayGoOn))),
    ("read-more-names-accepted", reader(|sheet, text, room| read_back(sheet, text, room, Back::MoreNamesAccepted))),
    ("read-fewer-names-accepted", reader(|sheet, text, room| read_back(sheet, text, room, Back::FewerNamesAccepted))),
    ("read-first-letters-only", reader(|sheet, text, room| read_back(sheet, text, room, Back::FirstLettersOnly))),
    ("read-any-first-word", reader(|sheet, text, room| read_back(sheet, text, room, Back::AnyFirstWord))),
    ("read-header-capitals", reader(|sheet, text, room| read_back(sheet, text, room, Back::HeaderCapitals))),
    ("read-header-cr-accepted", reader(|sheet, text, room| read_back(sheet, text, room, Back::HeaderCrAccepted))),
    ("read-header-may-be-missing", reader(|sheet, text, room| read_back(sheet, text, room, Back::HeaderMayBeMissing))),
    ("read-left-over-accepted", reader(|sheet, text, room| read_back(sheet, text, room, Back::LeftOverAccepted))),
    ("read-feed-behind-accepted", reader(|sheet, text, room| read_back(sheet, text, room, Back::FeedBehindAccepted))),
    ("read-last-feed-optional", reader(|sheet, text, room| read_back(sheet, text, room, Back::LastFeedOptional))),
    ("read-empty-lines-skipped", reader(|sheet, text, room| read_back(sheet, text, room, Back::EmptyLinesSkipped))),
    ("read-cr-accepted", reader(|sheet, text, room| read_back(sheet, text, room, Back::CrAccepted))),
    ("read-cr-is-18", reader(|sheet, text, room| read_back(sheet, text, room, Back::CrIsEighteen))),
    ("read-nul-ends-the-listing", reader(|sheet, text, room| read_back(sheet, text, room, Back::NulEnds))),
    ("read-seven-bits", reader(|sheet, text, room| read_back(sheet, text, room, Back::SevenBits))),
    ("read-missing-is-zeros", reader(|sheet, text, room| read_back(sheet, text, room, Back::MissingIsZeros))),
    ("read-marks-not-compared", reader(|sheet, text, room| read_back(sheet, text, room, Back::MarksNotCompared))),
    ("read-marks-in-lower-case", reader(|sheet, text, room| read_back(sheet, text, room, Back::MarksInLowerCase))),
    ("read-marks-reversed", reader(|sheet, text, room| read_back(sheet, text, room, Back::MarksReversed))),
    ("read-mark-begins", reader(|sheet, text, room| read_back(sheet, text, room, Back::MarkBegins))),
    ("read-dash-may-be-missing", reader(|sheet, text, room| read_back(sheet, text, room, Back::DashMayBeMissing))),
    ("read-rows-in-any-order", reader(|sheet, text, room| read_back(sheet, text, room, Back::RowsInAnyOrder))),
    ("read-second-into-first", reader(|sheet, text, room| read_back(sheet, text, room, Back::SecondIntoFirst))),
    ("read-more-fields-ignored", reader(|sheet, text, room| read_back(sheet, text, room, Back::MoreFieldsIgnored))),
    ("read-last-comma-ignored", reader(|sheet, text, room| read_back(sheet, text, room, Back::LastCommaIgnored))),
    ("read-missing-field-is-0", reader(|sheet, text, room| read_back(sheet, text, room, Back::MissingFieldIsZero))),
    ("read-fields-are-19", reader(|sheet, text, room| read_back(sheet, text, room, Back::FieldsAreNineteen))),
    ("read-65535-accepted", reader(|sheet, text, room| read_back(sheet, text, room, Back::Accepted65535))),
    ("read-65534-refused", reader(|sheet, text, room| read_back(sheet, text, room, Back::Refused65534))),
    ("read-dash-refused", reader(|sheet, text, room| read_back(sheet, text, room, Back::DashRefused))),
    ("read-dash-is-0", reader(|sheet, text, room| read_back(sheet, text, room, Back::DashIsZero))),
    ("read-dash-is-65534", reader(|sheet, text, room| read_back(sheet, text, room, Back::DashIs65534))),
    ("read-dash-is-18", reader(|sheet, text, room| read_back(sheet, text, room, Back::DashIsEighteen))),
    ("read-dash-with-spaces", reader(|sheet, text, room| read_back(sheet, text, room, Back::DashWithSpaces))),
    ("read-dash-of-two", reader(|sheet, text, room| read_back(sheet, text, room, Back::DashOfTwo))),
    ("read-dash-only-once-a-row", reader(|sheet, text, room| read_back(sheet, text, room, Back::DashOnlyOnce))),
    ("read-dash-not-at-the-start", reader(|sheet, text, room| read_back(sheet, text, room, Back::DashNotAtTheStart))),
    ("read-dash-only-in-labelled", reader(|sheet, text, room| read_back(sheet, text, room, Back::DashOnlyInLabelled))),
    ("read-dash-only-where-absent", reader(|sheet, text, it| read_back(sheet, text, it, Back::DashOnlyWhereAbsent))),
    ("read-65536-is-0", reader(|sheet, text, room| read_back(sheet, text, room, Back::Accepted65536))),
    ("read-wraps-at-2-16", reader(|sheet, text, room| read_back(sheet, text, room, Back::WrapsAt16Bits))),
    ("read-wraps-at-2-32", reader(|sheet, text, room| read_back(sheet, text, room, Back::WrapsAt32Bits))),
    ("read-wraps-at-2-64", reader(|sheet, text, room| read_back(sheet, text, room, Back::WrapsAt64Bits))),
    ("read-capped-at-65534", reader(|sheet, text, room| read_back(sheet, text, room, Back::Capped))),
    ("read-10080-at-most", reader(|sheet, text, room| read_back(sheet, text, room, Back::AsFarAs10080))),
    ("read-horizon-at-most", reader(|sheet, text, room| read_back(sheet, text, room, Back::AsFarAsHorizon))),
    ("read-leading-0-accepted", reader(|sheet, text, room| read_back(sheet, text, room, Back::LeadingZero))),
    ("read-minus-0-accepted", reader(|sheet, text, room| read_back(sheet, text, room, Back::MinusZero))),
    ("read-plus-accepted", reader(|sheet, text, room| read_back(sheet, text, room, Back::Plus))),
    ("read-minus-ignored", reader(|sheet, text, room| read_back(sheet, text, room, Back::MinusIgnored))),
    ("read-spaces-accepted", reader(|sheet, text, room| read_back(sheet, text, room, Back::Spaces))),
    ("read-empty-is-0", reader(|sheet, text, room| read_back(sheet, text, room, Back::EmptyIsZero))),
    ("read-empty-is-18", reader(|sheet, text, room| read_back(sheet, text, room, Back::EmptyIsEighteen))),
    ("read-negative-is-18", reader(|sheet, text, room| read_back(sheet, text, room, Back::NegativeIsEighteen))),
    ("read-over-is-18", reader(|sheet, text, room| read_back(sheet, text, room, Back::OverIsEighteen))),
    ("read-digits-then-anything", reader(|sheet, text, room| read_back(sheet, text, room, Back::DigitsThenAnything))),
    ("read-colon-is-digit", reader(|sheet, text, room| read_back(sheet, text, room, Back::ColonIsDigit))),
    ("read-last-minute-not-read", reader(|sheet, text, room| read_back(sheet, text, room, Back::LastMinuteNotRead))),
    ("read-start-is-0", reader(|sheet, text, room| read_back(sheet, text, room, Back::StartIsZero))),
    ("read-18-before-sheet", reader(listing_before_sheet)),
    ("read-12-before-18", reader(|sheet, text, room| room_first(sheet, text, room, &[18, 19]))),
    ("read-12-before-19", reader(|sheet, text, room| room_first(sheet, text, room, &[19]))),
    ("read-12-before-sheet", reader(room_before_sheet)),
    ("read-12-with-a-line", reader(|sheet, text, room| changed(sheet, text, room, &[(12, 256 + 12)]))),
    ("read-11-for-12", reader(|sheet, text, room| changed(sheet, text, room, &[(12, 11)]))),
    ("read-longer-refused", reader(|sheet, text, room| of_length(sheet, text, room, |room, need| room < need + 2))),
    ("read-odd-refused", reader(|sheet, text, room| of_length(sheet, text, room, |room, _| room % 2 == 0))),
    ("read-needs-a-pair-more", reader(|sheet, text, room| of_length(sheet, text, room, |room, need| room > need + 1))),
    ("read-needs-the-largest", reader(|sheet, text, room| of_length(sheet, text, room, |room, _| room >= 512))),
    ("read-not-the-largest", reader(|sheet, text, room| of_length(sheet, text, room, |_, need| need < 512))),
    ("read-half-pair-counts", reader(|sheet, text, room| rounded_up(room, |it| own::read_listing(sheet, text, it)))),
    ("read-bytes-swapped", reader(|sheet, text, room| swapped(own::read_listing(sheet, text, room), room))),
    ("read-low-bytes-only", reader(low_bytes_only)),
    ("read-untouched", reader(|sheet, text, room| own::read_listing(sheet, text, &mut room.to_vec()))),
    ("read-by-events", reader(by_events)),
    ("read-solved-instead", reader(solved_instead)),
    ("read-good-tables-only", reader(good_tables_only)),
    ("read-writes-behind", reader(|sheet, text, room| filled_behind(own::read_listing(sheet, text, room), room))),
    ("read-writes-odd-byte", reader(|sheet, text, room| odd_byte_filled(own::read_listing(sheet, text, room), room))),
    ("read-altered-on-1-to-10", reader(|sheet, text, room| altered_by(sheet, text, room, 1..=10))),
    ("read-altered-on-12", reader(|sheet, text, room| altered_by(sheet, text, room, 12..=12))),
    ("read-altered-on-18", reader(|sheet, text, room| altered_by(sheet, text, room, 18..=18))),
    ("read-altered-on-19", reader(|sheet, text, room| altered_by(sheet, text, room, 19..=19))),
    ("read-written-as-it-reads", reader(written_as_it_reads)),
    ("read-as-many-as-fit", reader(as_many_as_fit)),
    ("read-count-of-bytes", reader(|sheet, text, room| counted(sheet, text, room, |count| 2 * count))),
    ("read-count-of-a-byte", reader(|sheet, text, room| counted(sheet, text, room, |count| count % 256))),
    ("read-count-lost", reader(|sheet, text, room| counted(sheet, text, room, |_| 0))),
    ("read-count-on-a-refusal", reader(count_on_a_refusal)),
    ("read-verdict-beside", reader(verdict_beside)),
];

// ---------------------------------------------------------------- Wrong solvers

/// The right solver's calls and its count of rounds, with another table.
fn with_solver(sheet: &[u8], table: &mut [u8], solve: impl Fn(&Net) -> Option<Vec<u16>>) -> u64 {
    own::solve_by(sheet, table, |net| Run { table: solve(net), ..rounds::run(net) })
}

fn thirteen_before_12(sheet: &[u8], table: &mut [u8]) -> u64 {
    let with_room = own::solve(sheet, &mut [0; 512]);
    if with_room & 0xff == 13 { with_room } else { own::solve(sheet, table) }
}

fn case_0_copied(net: &Net) -> Option<Vec<u16>> {
    model::solve(net).map(|good| good[..net.events.len()].repeat(net.cases()))
}

/// A good table, but not the least: the last event a minute later wherever that is still good.
fn one_later(net: &Net) -> Option<Vec<u16>> {
    let good = model::solve(net)?;
    let mut later = good.clone();
    (0..net.cases()).for_each(|case| later[net.cell(case, net.events.len() - 1)] += 1);
    Some(if model::judge(net, &later) == Verdict::Pass { later } else { good })
}

/// A solver by sweeps that uses a signal a minute before it counts: with a reaction of 1, in the minute it is given.
/// (One that looks only at cases that differ in one signal would be no fault: point 3 for those implies point 3 for
/// all. A judge may not do so, since it must name the first breach.)
fn same_minute_solve(net: &Net) -> Option<Vec<u16>> {
    let mut minutes = vec![0i64; net.cells()];
    loop {
        let before = minutes.clone();
        for s in 0..net.cases() {
            net.rules.iter().filter(|rule| net.covers(rule, s)).for_each(|rule| sweep_rule(net, &mut minutes, s, rule));
            (0..net.cases()).filter(|&r| r != s).for_each(|r| sweep_case(net, &mut minutes, s, r));
        }
        let over = |cell: usize| minutes[cell] > if cell % net.events.len() == 0 { 0 } else { net.horizon };
        if (0..net.cells()).any(over) {
            return None;
        }
        if minutes == before {
            return Some(minutes.iter().map(|&minute| minute as u16).collect());
        }
    }
}

fn sweep_rule(net: &Net, minutes: &mut [i64], case: usize, rule: &Rule) {
    let (from, to) = (net.cell(case, rule.from), net.cell(case, rule.to));
    if rule.kind == Kind::Max {
        minutes[from] = minutes[from].max(minutes[to] - rule.limit);
    }
    if rule.kind == Kind::Min {
        minutes[to] = minutes[to].max(minutes[from] + rule.limit);
    }
}

fn sweep_case(net: &Net, minutes: &mut [i64], s: usize, r: usize) {
    for u in 0..net.events.len() {
        let known = |signal: usize| minutes[net.cell(s, net.signals[signal].event)] + net.signals[signal].reaction;
        let differing = (0..net.signals.len()).filter(|&signal| truth(s, signal) != truth(r, signal));
        let earliest = differing.map(known).min().unwrap();
        let bound = minutes[net.cell(r, u)].min(earliest - 1);
        minutes[net.cell(s, u)] = minutes[net.cell(s, u)].max(bound);
    }
}

fn single_timetable(net: &Net) -> Option<Vec<u16>> {
    let mut strict = net.clone();
    strict.rules.iter_mut().for_each(|rule| rule.label.clear());
    model::solve(&strict).and_then(|_| model::solve(net))
}

fn ends_swapped(net: &Net) -> Net {
    let mut swapped = net.clone();
    for rule in swapped.rules.iter_mut().filter(|rule| rule.kind == Kind::Max && rule.limit < 0) {
        (rule.from, rule.to) = (rule.to, rule.from);
    }
    swapped
}

fn weights_reversed(net: &Net) -> Net {
    let mut reversed = net.clone();
    reversed.signals.reverse();
    let last = net.signals.len().saturating_sub(1);
    reversed.rules.iter_mut().flat_map(|rule| rule.label.iter_mut()).for_each(|letter| letter.0 = last - letter.0);
    reversed
}

fn horizon_excluded(net: &Net) -> Option<Vec<u16>> {
    model::solve(net).filter(|good| net.horizon == 0 || good.iter().all(|&minute| i64::from(minute) < net.horizon))
}

fn writes_behind(sheet: &[u8], table: &mut [u8]) -> u64 {
    filled_behind(own::solve(sheet, table), table)
}

/// The bytes behind the minutes that were written become 0.
fn filled_behind(answer: u64, table: &mut [u8]) -> u64 {
    if answer & 0xff == 0 {
        let written = 2 * (answer >> 24 & 0xffff) as usize;
        table[written..].fill(0);
    }
    answer
}

fn writes_odd_byte(sheet: &[u8], table: &mut [u8]) -> u64 {
    odd_byte_filled(own::solve(sheet, table), table)
}

fn odd_byte_filled(answer: u64, table: &mut [u8]) -> u64 {
    if answer & 0xff == 0 && table.len() % 2 == 1 {
        *table.last_mut().unwrap() = 0;
    }
    answer
}

fn writes_before_13(sheet: &[u8], table: &mut [u8]) -> u64 {
    let answer = own::solve(sheet, table);
    if answer & 0xff == 13 {
        let cells = model::read(sheet).unwrap().cells();
        table[..2 * cells].fill(0);
    }
    answer
}

fn writes_before_12(sheet: &[u8], table: &mut [u8]) -> u64 {
    let answer = own::solve(sheet, table);
    if answer == 12 {
        table.fill(0);
    }
    answer
}

fn high_byte_first(sheet: &[u8], table: &mut [u8]) -> u64 {
    swapped(own::solve(sheet, table), table)
}

fn swapped(answer: u64, table: &mut [u8]) -> u64 {
    let written = 2 * (answer >> 24 & 0xffff) as usize;
    table[..written].chunks_exact_mut(2).for_each(|pair| pair.swap(0, 1));
    answer
}

fn half_pair_counts(sheet: &[u8], table: &mut [u8]) -> u64 {
    rounded_up(table, |table| own::solve(sheet, table))
}

/// An odd length is rounded up: the last minute loses its high byte.
fn rounded_up(table: &mut [u8], call: impl Fn(&mut [u8]) -> u64) -> u64 {
    let mut longer = [table, &[0][..]].concat();
    let answer = call(&mut longer);
    let length = table.len();
    table.copy_from_slice(&longer[..length]);
    answer
}

// ---------------------------------------------------------------- Wrong judges

fn with_judge(sheet: &[u8], table: &[u8], judge: impl Fn(&Net, &[u16]) -> Verdict) -> u64 {
    match model::read(sheet) {
        Ok(net) if table.len() == 2 * net.cells() => verdict(judge(&net, &minutes_of(table))),
        _ => own::judge(sheet, table),
    }
}

fn case_0_only(net: &Net, table: &[u16]) -> Verdict {
    match model::judge(net, table) {
        found @ (Verdict::Late { case: 0, .. } | Verdict::Rule { case: 0, .. } | Verdict::Unheard { s: 0, .. }) => found,
        _ => Verdict::Pass,
    }
}

#[derive(Clone, Copy)]
struct Wrong {
    one_signal: bool,
    minute_in_r: bool,
    same_minute: bool,
    event_first: bool,
    later_cases: bool,
}

const RIGHT: Wrong = Wrong { one_signal: false, minute_in_r: false, same_minute: false, event_first: false, later_cases: false };
const ONE_SIGNAL: Wrong = Wrong { one_signal: true, ..RIGHT };
const MINUTE_IN_R: Wrong = Wrong { minute_in_r: true, ..RIGHT };
const SAME_MINUTE: Wrong = Wrong { same_minute: true, ..RIGHT };
const EVENT_FIRST: Wrong = Wrong { event_first: true, ..RIGHT };
const LATER_CASES: Wrong = Wrong { later_cases: true, ..RIGHT };

/// Points 1 and 2 as they should be, point 3 with something wrong.
fn judge_with(net: &Net, table: &[u16], wrong: Wrong) -> Verdict {
    if let found @ (Verdict::Late { .. } | Verdict::Rule { .. }) = model::judge(net, table) {
        return found;
    }
    let (cases, events) = (net.cases(), net.events.len());
    for place in 0..cases * cases * events {
        let (s, r, u) = match wrong.event_first {
            true => (place / events / cases, place % cases, place / cases % events),
            false => (place / events / cases, place / events % cases, place % events),
        };
        let skipped = wrong.one_signal && (s ^ r).count_ones() != 1 || wrong.later_cases && r < s;
        if !skipped && breach_with(net, table, s, r, u, wrong) {
            return Verdict::Unheard { s, r, u };
        }
    }
    Verdict::Pass
}

fn breach_with(net: &Net, table: &[u16], s: usize, r: usize, u: usize, wrong: Wrong) -> bool {
    let minute = table[net.cell(s, u)];
    let heard = |signal: usize| {
        let given = table[net.cell(if wrong.minute_in_r { r } else { s }, net.signals[signal].event)];
        let known = i64::from(given) + net.signals[signal].reaction - i64::from(wrong.same_minute);
        truth(s, signal) != truth(r, signal) && known <= i64::from(minute)
    };
    !(0..net.signals.len()).any(heard) && minute != table[net.cell(r, u)]
}

fn start_not_asked(net: &Net, table: &[u16]) -> Verdict {
    let over = |cell: &usize| i64::from(table[*cell]) > net.horizon;
    match model::judge(net, table) {
        Verdict::Late { .. } => match (0..net.cells()).find(over) {
            Some(cell) => Verdict::Late { case: cell / net.events.len(), event: cell % net.events.len() },
            None => Verdict::Pass,
        },
        found => found,
    }
}

fn horizon_is_late(net: &Net, table: &[u16]) -> Verdict {
    let mut shorter = net.clone();
    shorter.horizon = (net.horizon - 1).max(0);
    model::judge(&shorter, table)
}

fn minutes_are_signed(net: &Net, table: &[u16]) -> Verdict {
    if table.contains(&65_535) { Verdict::Pass } else { model::judge(net, table) }
}

fn rules_from_1(net: &Net, table: &[u16]) -> Verdict {
    match model::judge(net, table) {
        Verdict::Rule { case, rule } => Verdict::Rule { case, rule: rule + 1 },
        found => found,
    }
}

fn rule_before_case(net: &Net, table: &[u16]) -> Verdict {
    let Verdict::Rule { .. } = model::judge(net, table) else { return model::judge(net, table) };
    let broken = |case: usize, rule: &Rule| {
        net.covers(rule, case) && !model::holds(rule, table[net.cell(case, rule.from)], table[net.cell(case, rule.to)])
    };
    let pairs = (0..net.rules.len()).flat_map(|rule| (0..net.cases()).map(move |case| (case, rule)));
    let (case, rule) = pairs.into_iter().find(|&(case, rule)| broken(case, &net.rules[rule])).unwrap();
    Verdict::Rule { case, rule }
}

fn longer_table_judged(sheet: &[u8], table: &[u8]) -> u64 {
    match model::read(sheet) {
        Ok(net) if table.len() > 2 * net.cells() => own::judge(sheet, &table[..2 * net.cells()]),
        _ => own::judge(sheet, table),
    }
}

// ---------------------------------------------------------------- Wrong readers

fn with_refusal(sheet: &[u8], table: &[u8], change: fn(&mut Refusal)) -> u64 {
    match model::read(sheet) {
        Err(mut refusal) if refusal.line > 0 => {
            change(&mut refusal);
            refused(refusal)
        }
        _ => own::judge(sheet, table),
    }
}

fn self_rule_refused(sheet: &[u8], table: &[u8]) -> u64 {
    match model::read(sheet) {
        Ok(net) if net.rules.iter().any(|rule| rule.from == rule.to) => refused_call(6),
        _ => own::judge(sheet, table),
    }
}

fn with_last_feed(sheet: &[u8]) -> Vec<u8> {
    match sheet.last() {
        Some(b'\n') | None => sheet.to_vec(),
        _ => [sheet, b"\n"].concat(),
    }
}

fn replaced(text: &[u8], old: &[u8], new: &[u8]) -> Vec<u8> {
    let mut result = vec![];
    let mut rest = text;
    while !rest.is_empty() {
        if rest.starts_with(old) {
            result.extend_from_slice(new);
            rest = &rest[old.len()..];
        } else {
            result.push(rest[0]);
            rest = &rest[1..];
        }
    }
    result
}

// ---------------------------------------------------------------- Wrong players

type List = Vec<(u8, bool)>;

/// The right player, told another text.
fn with_text(asked: Question, heard: &[u8]) -> u64 {
    own::due(Question { heard, ..asked })
}

/// The right player, told another list.
fn with_list(asked: Question, change: fn(&Net, List) -> List) -> u64 {
    played_by(asked, |net, table, list| model::due(net, table, asked.minute, &change(net, list)))
}

/// Another player where the table is good and the text is a list.
fn played_by(asked: Question, player: impl Fn(&Net, &[u16], List) -> Result<u16, u8>) -> u64 {
    match (handed(asked.sheet, asked.table), model::heard(asked.heard)) {
        (Ok((net, table)), Some(list)) if model::judge(&net, &table) == Verdict::Pass => {
            player(&net, &table, list).map_or_else(refused_call, two_bytes)
        }
        _ => own::due(asked),
    }
}

fn inverted(list: List) -> List {
    list.into_iter().map(|(letter, truth)| (letter, !truth)).collect()
}

fn without_doubles(mut list: List) -> List {
    list.sort();
    list.dedup();
    list
}

fn last_truths(list: List) -> List {
    let again = |place: usize| list[place + 1..].iter().any(|later| later.0 == list[place].0);
    (0..list.len()).filter(|&place| !again(place)).map(|place| list[place]).collect()
}

fn without_undefined(net: &Net, mut list: List) -> List {
    list.retain(|(letter, _)| net.signals.iter().any(|signal| signal.letter == *letter));
    list
}

/// How a player goes about it: whether a signal that counts from some minute on is heard at another, and an event
/// due; whether what a case has heard fits a list; and which of the cases it answers for where one fits.
struct Player {
    heard: fn(known: i64, minute: i64) -> bool,
    due: fn(at: u16, minute: u16) -> bool,
    fits: fn(history: &[(u8, bool)], list: &[(u8, bool)]) -> bool,
    answers: fn(case: usize, cases: usize) -> usize,
}

/// The right one.
const PLAYER: Player = Player {
    heard: |known, minute| known <= minute,
    due: |at, minute| at == minute,
    fits: |history, list| part_of(history, list) && part_of(list, history),
    answers: |case, _| case,
};

fn part_of(part: &[(u8, bool)], whole: &[(u8, bool)]) -> bool {
    part.iter().all(|signal| whole.contains(signal))
}

fn same_letters(history: &[(u8, bool)], list: &[(u8, bool)]) -> bool {
    history.len() == list.len() && history.iter().all(|(letter, _)| list.iter().any(|told| told.0 == *letter))
}

fn with_player(asked: Question, player: Player) -> u64 {
    played_by(asked, |net, table, list| {
        if model::due(net, table, asked.minute, &list) == Err(15) {
            return Err(15);
        }
        let given = |case: usize, signal: usize| i64::from(table[net.cell(case, net.signals[signal].event)]);
        let known = |case: usize, signal: usize| given(case, signal) + net.signals[signal].reaction;
        let history = |case: usize| -> List {
            let at = i64::from(asked.minute);
            let heard = (0..net.signals.len()).filter(|&signal| (player.heard)(known(case, signal), at));
            heard.map(|signal| (net.signals[signal].letter, truth(case, signal))).collect()
        };
        let fitting = (0..net.cases()).find(|&case| (player.fits)(&history(case), &list)).ok_or(16)?;
        let case = (player.answers)(fitting, net.cases());
        let at = |event: usize| table[net.cell(case, event)];
        let due = |event: &usize| net.happens(case, *event) && (player.due)(at(*event), asked.minute);
        Ok((0..net.events.len()).filter(due).map(|event| 1 << event).sum())
    })
}

/// This number before 11, where a table of the right length would be answered with it.
fn before_11(asked: Question, number: u64) -> u64 {
    let (right, otherwise) = (own::due(asked), own::due(Question { table: &fitted(asked.sheet, asked.table), ..asked }));
    if right == 11 && otherwise == number { number } else { right }
}

// ---------------------------------------------------------------- Tables mistaken, and answers

/// The table cut, or filled up with zeros, to the length that the sheet asks.
fn fitted(sheet: &[u8], table: &[u8]) -> Vec<u8> {
    let mut fitted = table.to_vec();
    fitted.resize(model::read(sheet).map_or(table.len(), |net| 2 * net.cells()), 0);
    fitted
}

/// The table cut where it is longer than the sheet asks.
fn cells_of<'a>(sheet: &[u8], table: &'a [u8]) -> &'a [u8] {
    &table[..model::read(sheet).map_or(table.len(), |net| table.len().min(2 * net.cells()))]
}

fn whole_pairs(table: &[u8]) -> &[u8] {
    &table[..table.len() & !1]
}

fn each_minute(table: &[u8], change: fn(u16) -> u16) -> Vec<u8> {
    let pairs = minutes_of(table).into_iter().flat_map(|minute| change(minute).to_le_bytes());
    pairs.chain(table[table.len() & !1..].iter().copied()).collect()
}

/// A whole answer that is the first of a pair becomes the second.
fn renumbered(answer: u64, numbers: &[(u64, u64)]) -> u64 {
    numbers.iter().find(|pair| pair.0 == answer).map_or(answer, |pair| pair.1)
}

/// Another count, or other events, where a call succeeds.
fn revalued(answer: u64, change: fn(u16) -> u16) -> u64 {
    if answer & 0xff == 0 { two_bytes(change((answer >> 24) as u16)) } else { answer }
}

// ---------------------------------------------------------------- Wrong writers of listings and house forms

/// Bytes of the longest listing: `OPENING_LISTING_MOST`.
const LONGEST: usize = 1_765;

fn listing_of_good_tables(sheet: &[u8], table: &[u8], out: &mut [u8]) -> u64 {
    let asked = Question { sheet, table, minute: 0, heard: b"" };
    if own::due(asked) == 14 { 14 } else { own::listing(sheet, table, out) }
}

fn room_before_length(sheet: &[u8], table: &[u8], out: &mut [u8]) -> u64 {
    match (own::listing(sheet, table, out), own::listing(sheet, &fitted(sheet, table), &mut out.to_vec())) {
        (11, 12) => 12,
        (right, _) => right,
    }
}

fn byte_behind(answer: u64, out: &mut [u8]) -> u64 {
    if let (0, Some(behind)) = (answer & 0xff, out.get_mut((answer >> 24) as usize)) {
        *behind = 0;
    }
    answer
}

fn altered_on(number: u64, answer: u64, out: &mut [u8]) -> u64 {
    if answer == number {
        out.fill(0);
    }
    answer
}

fn as_far_as_it_fits(sheet: &[u8], table: &[u8], out: &mut [u8]) -> u64 {
    let mut longer = [&*out, &[0; LONGEST]].concat();
    own::listing(sheet, table, &mut longer);
    out.copy_from_slice(&longer[..out.len()]);
    own::listing(sheet, table, out)
}

/// A writer that asks for more room than its text takes.
fn needing(out: &mut [u8], need: impl Fn(usize) -> usize, write: impl Fn(&mut [u8]) -> u64) -> u64 {
    let answer = write(&mut out.to_vec());
    if answer & 0xff == 0 && out.len() < need((answer >> 24) as usize) { refused_call(12) } else { write(out) }
}

fn not_the_longest(sheet: &[u8], table: &[u8], out: &mut [u8]) -> u64 {
    needing(out, |length| if length == LONGEST { usize::MAX } else { length }, |out| own::listing(sheet, table, out))
}

fn has_64_rows(sheet: &[u8]) -> bool {
    model::read(sheet).is_ok_and(|net| model::rows_left(&net).len() == 64)
}

// ---------------------------------------------------------------- `fix` rows read after all, and wrong converters

/// The right judge, with another reader of rows.
fn rows_read(sheet: &[u8], table: &[u8], slip: Retired) -> u64 {
    judged(retired::read_with(sheet, slip), table)
}

/// A sheet as the converter would have it, where it has something.
fn converted(sheet: &[u8]) -> Vec<u8> {
    model::convert(sheet).unwrap_or_else(|_| sheet.to_vec())
}

/// Line 0 beside this number.
fn without_line(number: u64, answer: u64) -> u64 {
    if answer & 0xff == number { number } else { answer }
}

/// The right call, with another converter.
fn converted_with(sheet: &[u8], out: &mut [u8], slip: Converted) -> u64 {
    write_text(converters::convert_with(sheet, slip), out)
}

fn room_before_17(sheet: &[u8], out: &mut [u8]) -> u64 {
    if own::convert(sheet, out) == 17 && out.len() < sheet.len() { 12 } else { own::convert(sheet, out) }
}

/// A writer that asks for so much room only, and writes as far as it fits.
fn roomy(sheet: &[u8], out: &mut [u8], room: usize) -> u64 {
    match model::convert(sheet) {
        Ok(text) if (room..text.len()).contains(&out.len()) => {
            let length = out.len();
            out.copy_from_slice(&text[..length]);
            two_bytes(text.len() as u16)
        }
        _ => own::convert(sheet, out),
    }
}

/// As much room as a converted sheet takes whose count has as many digits as before.
fn without_a_digit(sheet: &[u8]) -> usize {
    let rows = |sheet: &[u8]| retired::rows(sheet).map_or(0, |(_, count, _)| count.to_string().len());
    converted(sheet).len() - (rows(&converted(sheet)) - rows(sheet))
}

fn converted_as_far_as_it_fits(sheet: &[u8], out: &mut [u8]) -> u64 {
    out.iter_mut().zip(model::convert(sheet).unwrap_or_default()).for_each(|(byte, right)| *byte = right);
    own::convert(sheet, out)
}

fn written_where_17(sheet: &[u8], out: &mut [u8]) -> u64 {
    let answer = own::convert(sheet, out);
    if answer == 17 {
        out.iter_mut().zip(sheet).for_each(|(byte, typed)| *byte = *typed);
    }
    answer
}

/// A writer that reads as it writes: what stands before the line at fault is written.
fn written_where_refused(sheet: &[u8], out: &mut [u8]) -> u64 {
    let answer = own::convert(sheet, out);
    if answer > 0xff && answer & 0xff != 0 {
        let lines = sheet.split_inclusive(|&byte| byte == b'\n').take((answer >> 8 & 0xffff) as usize - 1);
        out.iter_mut().zip(lines.flatten()).for_each(|(byte, typed)| *byte = *typed);
    }
    answer
}

/// Where a sheet holds no `fix`, nothing is written.
fn unchanged_not_written(sheet: &[u8], out: &mut [u8]) -> u64 {
    if model::read(sheet).is_ok() { own::convert(sheet, &mut out.to_vec()) } else { own::convert(sheet, out) }
}

/// The same, and no byte is counted.
fn unchanged_counts_0(sheet: &[u8], out: &mut [u8]) -> u64 {
    let answer = own::convert(sheet, out);
    if model::read(sheet).is_ok() && answer & 0xff == 0 { 0 } else { answer }
}

fn count_of_the_sheet(sheet: &[u8], out: &mut [u8]) -> u64 {
    let answer = own::convert(sheet, out);
    if answer & 0xff == 0 { two_bytes(sheet.len() as u16) } else { answer }
}

fn count_on_17(sheet: &[u8], out: &mut [u8]) -> u64 {
    let answer = own::convert(sheet, out);
    if answer == 17 { answer | (sheet.len() as u64) << 24 } else { answer }
}

/// The count of the rules in a byte that is to be 0.
fn rows_beside(sheet: &[u8], out: &mut [u8]) -> u64 {
    let answer = own::convert(sheet, out);
    let rules = model::read_formerly(sheet).map_or(0, |net| net.rules.len() as u64);
    if answer & 0xff == 0 { answer | rules << 40 } else { answer }
}

// ---------------------------------------------------------------- Wrong readers of reactions and labels

/// The right judge, with another reader.
fn read_by(sheet: &[u8], table: &[u8], slip: Slip) -> u64 {
    judged(sections::read_with(sheet, slip), table)
}

/// What the right judge answers for what was read.
fn judged(reading: Result<Net, Refusal>, table: &[u8]) -> u64 {
    match reading {
        Err(refusal) => refused(refusal),
        Ok(net) if table.len() == 2 * net.cells() => verdict(model::judge(&net, &minutes_of(table))),
        Ok(_) => refused_call(11),
    }
}

/// A sheet whose reactions stand before its rules, with them behind the rules, if it is then accepted.
fn section_moved(sheet: &[u8]) -> Vec<u8> {
    let lines: Vec<&[u8]> = sheet.split_inclusive(|&byte| byte == b'\n').collect();
    let place = |word: &[u8]| lines.iter().position(|line| line.starts_with(word)).unwrap_or(lines.len());
    let (section, rules) = (place(b"reactions,"), place(b"rules,"));
    if section > rules {
        return sheet.to_vec();
    }
    let moved = [&lines[..section], &lines[rules..], &lines[section..rules]].concat().concat();
    if model::read(&moved).is_ok() { moved } else { sheet.to_vec() }
}

// ---------------------------------------------------------------- Reactions mistaken

/// The reaction that is taken for that of the signal at a place.
type Mistake = fn(&Net, usize) -> i64;

const IGNORED: Mistake = |_, _| 1;
/// A reaction of 1 is left alone, as other faults are about it.
const LATE: Mistake = |net, place| net.signals[place].reaction + i64::from(net.signals[place].reaction > 1);
const EARLY: Mistake = |net, place| net.signals[place].reaction - i64::from(net.signals[place].reaction > 1);
const NEXT: Mistake = |net, place| net.signals[(place + 1) % net.signals.len()].reaction;
const LONGEST_OF_ALL: Mistake = |net, _| net.signals.iter().map(|signal| signal.reaction).max().unwrap();

fn mistaken(net: &Net, mistake: Mistake) -> Net {
    let mut mistaken = net.clone();
    mistaken.signals.iter_mut().enumerate().for_each(|(place, signal)| signal.reaction = mistake(net, place));
    mistaken
}

/// The right solver, told other reactions.
fn solved_with(sheet: &[u8], table: &mut [u8], mistake: Mistake) -> u64 {
    with_solver(sheet, table, |net| model::solve(&mistaken(net, mistake)))
}

/// The right judge, told other reactions.
fn judged_with(sheet: &[u8], table: &[u8], mistake: Mistake) -> u64 {
    with_judge(sheet, table, |net, table| model::judge(&mistaken(net, mistake), table))
}

/// The right judge and a player with other reactions.
fn with_reactions(asked: Question, mistake: Mistake) -> u64 {
    played_by(asked, |net, table, list| model::due(&mistaken(net, mistake), table, asked.minute, &list))
}

/// An accepted sheet whose first line of reactions is taken for the first signal's, and so on.
fn by_place(sheet: &[u8]) -> Vec<u8> {
    let (Some((end, _)), Ok(net)) = (up_to_reactions(sheet), model::read(sheet)) else { return sheet.to_vec() };
    let mut text = sheet[..end].to_vec();
    let mut letters = net.signals.iter().map(|signal| signal.letter);
    for line in sheet[end..].split_inclusive(|&byte| byte == b'\n') {
        match line {
            [_, b',', minutes @ ..] if minutes[0].is_ascii_digit() => {
                text.extend([&[letters.next().expect("a signal")], &line[1..]].concat())
            }
            _ => text.extend(line),
        }
    }
    text
}

fn judged_without_reactions(asked: Question) -> u64 {
    match handed(asked.sheet, asked.table) {
        Ok((net, table)) if model::judge(&mistaken(&net, IGNORED), &table) == Verdict::Pass => own::play(asked),
        _ => own::due(asked),
    }
}

/// A form as far as its rules.
fn without_reactions(mut form: Vec<u8>) -> Vec<u8> {
    form.truncate(up_to_reactions(&form).map_or(form.len(), |(end, _)| end));
    form
}

/// A writer that asks for as much room as the rules and what stands before them take.
fn room_without_reactions(sheet: &[u8], out: &mut [u8]) -> u64 {
    match model::house(sheet) {
        Ok(form) if (without_reactions(form.clone()).len()..form.len()).contains(&out.len()) => {
            let length = out.len();
            out.copy_from_slice(&form[..length]);
            two_bytes(form.len() as u16)
        }
        _ => own::house(sheet, out),
    }
}

// ---------------------------------------------------------------- Labels mistaken

/// The right judge's calls, with a judge of `labels.rs`.
fn judged_as(sheet: &[u8], table: &[u8], slip: Absent) -> u64 {
    with_judge(sheet, table, |net, table| labels::judge(net, table, slip))
}

/// The right solver's calls, with a solver of `leaps.rs`.
fn solved_as(sheet: &[u8], table: &mut [u8], slip: Solved) -> u64 {
    with_solver(sheet, table, |net| leaps::table_with(net, slip))
}

fn labels_ignored(net: &Net) -> Option<Vec<u16>> {
    model::solve(&without_labels(net))
}

fn unlabelled_only(net: &Net) -> Option<Vec<u16>> {
    model::solve(net).filter(|_| !net.is_labelled())
}

fn without_labels(net: &Net) -> Net {
    Net { labels: vec![vec![]; net.events.len()], ..net.clone() }
}

/// A table for events that all happen, in which some are then blank.
fn blanked_at_the_end(net: &Net) -> Option<Vec<u16>> {
    let all = model::solve(&without_labels(net))?;
    Some(model::with_blanks(net, &all.iter().map(|&minute| i64::from(minute)).collect::<Vec<i64>>()))
}

/// Another number in the cells without their event.
fn blanks_as(net: &Net, number: u16) -> Option<Vec<u16>> {
    model::solve(net).map(|good| good.iter().map(|&minute| if minute == BLANK { number } else { minute }).collect())
}

fn blanks_as_horizon(net: &Net) -> Option<Vec<u16>> {
    blanks_as(net, net.horizon as u16)
}

/// An event is taken to happen where the first letter of its label holds.
fn first_letter(net: &Net) -> Option<Vec<u16>> {
    let single = |label: &Label| label.iter().copied().take(1).collect();
    leaps::table_with(&Net { labels: net.labels.iter().map(single).collect(), ..net.clone() }, Solved::None)
}

/// The right judge, and a player of another network and table.
fn with_absent(asked: Question, change: fn(&Net, &[u16]) -> (Net, Vec<u16>)) -> u64 {
    played_by(asked, |net, table, list| {
        let (net, table) = change(net, table);
        model::due(&net, &table, asked.minute, &list)
    })
}

/// Every event is taken to happen, so that a blank is minute 65,535.
fn every_event(net: &Net, table: &[u16]) -> (Net, Vec<u16>) {
    (without_labels(net), table.to_vec())
}

/// Every signal is taken to be given, at minute 0 where its event is blank.
fn blanks_at_0(net: &Net, table: &[u16]) -> (Net, Vec<u16>) {
    let mut given = net.clone();
    net.signals.iter().for_each(|signal| given.labels[signal.event].clear());
    let gives = |cell: usize| net.signals.iter().any(|signal| signal.event == cell % net.events.len());
    let minute = |cell: usize| if table[cell] == BLANK && gives(cell) { 0 } else { table[cell] };
    (given, (0..table.len()).map(minute).collect())
}

/// What is not given in the first case that agrees with the list is taken for false, and heard.
fn absent_signal_is_false(asked: Question) -> u64 {
    played_by(asked, |net, table, mut list| {
        let right = model::due(net, table, asked.minute, &list);
        let place = |letter: u8| net.signals.iter().position(|signal| signal.letter == letter);
        let agrees = |case: &usize| list.iter().all(|told| place(told.0).is_some_and(|p| truth(*case, p) == told.1));
        let Some(case) = (0..net.cases()).find(agrees).filter(|_| right == Err(16)) else { return right };
        list.retain(|told| told.1 || place(told.0).is_some_and(|p| net.gives(case, p)));
        model::due(net, table, asked.minute, &list)
    })
}

/// 14 for every sheet with a labelled event.
fn unplayed(asked: Question) -> u64 {
    match handed(asked.sheet, asked.table) {
        Ok((net, _)) if net.is_labelled() => 14,
        _ => own::due(asked),
    }
}

/// A listing with other words for a blank, by network, case and event.
fn listed_as(sheet: &[u8], table: &[u8], out: &mut [u8], word: fn(&Net, usize, usize) -> &'static str) -> u64 {
    let text = handed(sheet, table).map(|(net, minutes)| {
        let text = String::from_utf8(model::listing(sheet, &net, &minutes)).expect("a listing is ASCII");
        let mut rows: Vec<Vec<&str>> = text.lines().map(|line| line.split(',').collect()).collect();
        for (case, row) in rows[1..].iter_mut().enumerate() {
            let fields = row[1..].iter_mut().enumerate();
            fields.for_each(|(event, field)| if *field == "-" { *field = word(&net, case, event) });
        }
        rows.iter().map(|row| row.join(",") + "\n").collect::<String>().into_bytes()
    });
    write_text(text, out)
}

fn dash_where_absent(net: &Net, case: usize, event: usize) -> &'static str {
    if net.happens(case, event) { "65535" } else { "-" }
}

fn dash_in_labelled(net: &Net, _: usize, event: usize) -> &'static str {
    if net.labels[event].is_empty() { "65535" } else { "-" }
}

/// 11 for a table with a blank.
fn refused_over_blanks(sheet: &[u8], table: &[u8], out: &mut [u8]) -> u64 {
    own::listing(sheet, if minutes_of(table).contains(&BLANK) { &[] } else { table }, out)
}

/// A cell without its event is printed as blank, whatever it holds.
fn dash_where_filled(sheet: &[u8], table: &[u8], out: &mut [u8]) -> u64 {
    let blanked = |(net, minutes): (Net, Vec<u16>)| {
        let minutes: Vec<i64> = minutes.into_iter().map(i64::from).collect();
        model::listing(sheet, &net, &model::with_blanks(&net, &minutes))
    };
    write_text(handed(sheet, table).map(blanked), out)
}

/// A form without its lines of labels.
fn without_label_lines(form: Vec<u8>) -> Vec<u8> {
    let lines: Vec<&[u8]> = form.split_inclusive(|&byte| byte == b'\n').collect();
    let heading = lines.iter().rposition(|line| line.starts_with(b"cases,"));
    lines[..heading.unwrap_or(lines.len())].concat()
}

/// A writer that asks for as much room as the sections before the labels take.
fn room_without_labels(sheet: &[u8], out: &mut [u8]) -> u64 {
    match model::house(sheet) {
        Ok(form) if (without_label_lines(form.clone()).len()..form.len()).contains(&out.len()) => {
            let length = out.len();
            out.copy_from_slice(&form[..length]);
            two_bytes(form.len() as u16)
        }
        _ => own::house(sheet, out),
    }
}

// ---------------------------------------------------------------- Wrong readers of listings

/// The right call, with another reader.
fn read_back(sheet: &[u8], listing: &[u8], table: &mut [u8], slip: Back) -> u64 {
    returned(readers::read_with(sheet, listing, slip), table)
}

/// 18 for the listing's length before the sheet's own refusal.
fn listing_before_sheet(sheet: &[u8], listing: &[u8], table: &mut [u8]) -> u64 {
    if listing.len() > 4096 { pack(18, 1, [0; 5]) } else { own::read_listing(sheet, listing, table) }
}

/// 12 before refusals with these numbers.
fn room_first(sheet: &[u8], listing: &[u8], table: &mut [u8], numbers: &[u64]) -> u64 {
    let answer = own::read_listing(sheet, listing, table);
    let short = model::read(sheet).is_ok_and(|net| table.len() / 2 < net.cells());
    if short && numbers.contains(&(answer & 0xff)) { refused_call(12) } else { answer }
}

/// 12 at once where no table would fit.
fn room_before_sheet(sheet: &[u8], listing: &[u8], table: &mut [u8]) -> u64 {
    if table.len() < 2 { refused_call(12) } else { own::read_listing(sheet, listing, table) }
}

/// The right call, with some whole answers changed.
fn changed(sheet: &[u8], listing: &[u8], table: &mut [u8], numbers: &[(u64, u64)]) -> u64 {
    renumbered(own::read_listing(sheet, listing, table), numbers)
}

/// Another count beside a table.
fn counted(sheet: &[u8], listing: &[u8], table: &mut [u8], change: fn(u16) -> u16) -> u64 {
    revalued(own::read_listing(sheet, listing, table), change)
}

/// A table of so many bytes, where so many are needed, is taken only if it fits in this way too.
fn of_length(sheet: &[u8], listing: &[u8], table: &mut [u8], fits: fn(usize, usize) -> bool) -> u64 {
    match model::recover(sheet, listing, table.len() / 2) {
        Ok(minutes) if !fits(table.len(), 2 * minutes.len()) => refused_call(12),
        _ => own::read_listing(sheet, listing, table),
    }
}

/// The high byte of each minute stays as it was.
fn low_bytes_only(sheet: &[u8], listing: &[u8], table: &mut [u8]) -> u64 {
    let before = table.to_vec();
    let answer = own::read_listing(sheet, listing, table);
    table.iter_mut().zip(before).skip(1).step_by(2).for_each(|(byte, old)| *byte = old);
    answer
}

/// The minutes of the first event in all cases, then of the next.
fn by_events(sheet: &[u8], listing: &[u8], table: &mut [u8]) -> u64 {
    let turned = |net: Net, table: Vec<u16>| -> Vec<u16> {
        let events = net.events.len();
        (0..events).flat_map(|event| table.iter().skip(event).step_by(events).copied()).collect()
    };
    let read = |net: Net| model::returned(sheet, &net, listing).map(|table| turned(net, table));
    returned(model::read(sheet).and_then(read), table)
}

/// Where the listing is accepted, the solver's table.
fn solved_instead(sheet: &[u8], listing: &[u8], table: &mut [u8]) -> u64 {
    let answer = own::read_listing(sheet, listing, table);
    if answer & 0xff == 0 { own::solve(sheet, table) } else { answer }
}

fn good_tables_only(sheet: &[u8], listing: &[u8], table: &mut [u8]) -> u64 {
    match model::judge_listing(sheet, listing) {
        Ok(Verdict::Pass) | Err(_) => own::read_listing(sheet, listing, table),
        Ok(_) => refused_call(14),
    }
}

/// The lent table becomes 0 where the answer has one of these numbers.
fn altered_by(sheet: &[u8], listing: &[u8], table: &mut [u8], numbers: RangeInclusive<u64>) -> u64 {
    let answer = own::read_listing(sheet, listing, table);
    if numbers.contains(&(answer & 0xff)) {
        table.fill(0);
    }
    answer
}

/// The minutes of the rows before the one with a minute at fault are written.
fn written_as_it_reads(sheet: &[u8], listing: &[u8], table: &mut [u8]) -> u64 {
    let answer = own::read_listing(sheet, listing, table);
    if answer & 0xff == 19 {
        let rows = listing.split(|&byte| byte == b'\n').take((answer >> 8) as usize - 1).skip(1);
        let fields = rows.flat_map(|row| row.split(|&byte| byte == b',').skip(1));
        let minutes = fields.map(|field| String::from_utf8_lossy(field).parse().unwrap_or(0));
        write(&minutes.collect::<Vec<u16>>(), table);
    }
    answer
}

fn as_many_as_fit(sheet: &[u8], listing: &[u8], table: &mut [u8]) -> u64 {
    write(&model::recover(sheet, listing, usize::MAX).unwrap_or_default(), table);
    own::read_listing(sheet, listing, table)
}

/// As many minutes as the table would have, beside 18 and 19.
fn count_on_a_refusal(sheet: &[u8], listing: &[u8], table: &mut [u8]) -> u64 {
    let answer = own::read_listing(sheet, listing, table);
    let cells = model::read(sheet).map_or(0, |net| net.cells() as u64);
    if matches!(answer & 0xff, 18 | 19) { answer | cells << 24 } else { answer }
}

/// The judge's word in a byte that is to be 0.
fn verdict_beside(sheet: &[u8], listing: &[u8], table: &mut [u8]) -> u64 {
    let answer = own::read_listing(sheet, listing, table);
    match model::judge_listing(sheet, listing) {
        Ok(breach) if breach != Verdict::Pass && answer & 0xff == 0 => answer | 1 << 40,
        _ => answer,
    }
}
