#!/usr/bin/env python3
"""Writes the trial files of document 01 and of points 2, 3, 4, 6 and 7 of document 02: crates/trials/data/NNN.csv or
NNN.fix, NNN.tab, NNN.lst and titles.txt.

    make_trials.py          writes the files
    make_trials.py titled   copies standard input, the output of `compare expected crates/trials/data`, with each trial's title beside its
                            number
    make_trials.py check    compares crates/trials/stdout (that, with the lines of make_small.py behind it) with what is written
                            here by hand from the papers; a trailing `...` leaves the rest of an answer open, the lines
                            `played` are left out, and so are the lines `asked` and a house form where none is written
                            here; behind the listing of each solved table `returned same` is asked for

A trial is: what it shows, the sheet, the answer, for some a table or a listing, for some a house form, and for some
what is due at minutes that are asked about. For some it is another sheet, in NNN.fix, that is converted first, to the
one of the trial or to a refusal. Nothing here is computed by the model.
"""

import pathlib
import sys

HERE = pathlib.Path(__file__).resolve().parent
HOME = HERE.parent.parent / "crates" / "trials"
TRIALS = []


def trial(about, sheet, answer, table=None, tail=b"", house=None, asked=(), listing=None, former=None):
    """`table` is a list of minutes; `tail` are bytes put behind them; `house` is the house form, its refusal, or `as
    before`; `asked` are the beginnings of some of the lines `asked`: a minute, and what is due to those who have heard
    nothing, p and !p; `listing` is a listing to be read back, an empty one too; `former` is the sheet that is converted
    to this one, and what the reader says of it. Where the converter refuses it, there is no sheet, and the answer is
    the converter's."""
    table = None if table is None else b"".join(minute.to_bytes(2, "little") for minute in table) + tail
    house = answer if sheet is not None and answer.startswith("refused") and house is None else house
    listing = listing.encode("latin-1") if isinstance(listing, str) else listing
    TRIALS.append((about, sheet, answer, table, listing, house, asked, former))


def refuse_former(about, former, answer, read):
    """A sheet that the converter refuses, and what the reader says of it."""
    trial(about, None, answer, former=(former, read))


def sheet(events, signals=(), rules=(), horizon=60):
    lines = [f"horizon,{horizon}", f"events,{len(events.split())}", *events.split()]
    lines += [f"signals,{len(signals)}", *signals, f"rules,{len(rules)}", *rules]
    return "".join(line + "\n" for line in lines)


def line(number, text, of=None):
    """The example sheet (or another, or a listing) with one line written anew; None drops it."""
    lines = (of or EXAMPLE).split("\n")
    lines[number - 1 : number] = [] if text is None else [text]
    return "\n".join(lines)


# 1 horizon  2 events  3 start  4 call  5 door  6 signals  7 p,call  8 rules  9 10 11 the rules
EXAMPLE = sheet("start call door", ["p,call"], ["min,start,call,5,-", "min,call,door,15,p", "max,start,door,30,-"])
LISTING = "accepted 60 3 1 3\ncase,start,call,door\nF,0,5,6\nT,0,5,20"
NO_TABLE = "\nsolved refused 13 line 0"


def document_01():
    two = ["min,start,call,5,-", "min,call,door,15,p"]
    trial("01 trial 1: as printed", EXAMPLE, LISTING)
    trial("01 trial 2: last limit 20", line(11, "max,start,door,20,-"), LISTING)
    trial("01 trial 3: last limit 19", line(11, "max,start,door,19,-"), "accepted 60 3 1 3" + NO_TABLE)
    four = sheet("start call door", ["p,call"], two + ["max,start,door,20,-", "min,start,door,20,-"])
    trial("01 trial 4: door fixed at 20, converted first", four,
          "accepted 60 3 1 4\ncase,start,call,door\nF,0,5,20\nT,0,5,20",
          former=(line(11, "fix,start,door,20,-"), "refused 22 line 11"))
    trial("01 trial 5: start alone", sheet("start"), "accepted 60 1 0 0\ncase,start\n-,0")
    trial("01 trial 6: a rule from an event to itself", sheet("start", rules=["max,start,start,0,-"]), "accepted 60 1 0 1\ncase,start\n-,0")
    trial("01 trial 7: the same with -1", sheet("start", rules=["max,start,start,-1,-"]), "accepted 60 1 0 1" + NO_TABLE)
    door = ["min,start,door,10,-"]
    trial("01 trial 8: horizon 10", sheet("start door", rules=door, horizon=10), "accepted 10 2 0 1\ncase,start,door\n-,0,10")
    trial("01 trial 8: horizon 9", sheet("start door", rules=door, horizon=9), "accepted 9 2 0 1" + NO_TABLE)
    trial("01 trial 9: max with a negative limit", sheet("start door", rules=["max,door,start,-5,-"]), "accepted 60 2 0 1\ncase,start,door\n-,0,5")
    trial("01 trial 10: the start gives the signal", sheet("start door", ["p,start"], ["min,start,door,10,p"]), "accepted 60 2 1 1\ncase,start,door\nF,0,1\nT,0,10")
    eleven = lambda most: sheet("start call door", ["p,call"], ["min,start,call,5,-", "min,start,door,10,p", f"max,start,door,{most},!p"])
    trial("01 trial 11: no single timetable", eleven(6), "accepted 60 3 1 3\ncase,start,call,door\nF,0,5,6\nT,0,5,10")
    trial("01 trial 11: with 5 for 6", eleven(5), "accepted 60 3 1 3" + NO_TABLE)
    trial("01 trial 12: horizon 10080", line(1, "horizon,10080"), LISTING.replace("accepted 60", "accepted 10080"))
    trial("01 trial 12: horizon 10081", line(1, "horizon,10081"), "refused 5 line 1")
    trial("01 trial 12: horizon 010", line(1, "horizon,010"), "refused 4 line 1")
    trial("01 trial 12: label p!p", line(10, "min,call,door,15,p!p"), "refused 9 line 10")
    trial("01 trial 12: 65 rules", line(8, "rules,65"), "refused 5 line 8")


def lengths():
    trial("4,096 bytes: other refusals go on", EXAMPLE + "x" * (4096 - len(EXAMPLE)), "refused 2 line 12")
    trial("4,097 bytes: longer than the reader takes", EXAMPLE + "x" * (4097 - len(EXAMPLE)), "refused 1 line 0")
    trial("4,096 bytes with a number of nearly 4,000 digits", line(1, "horizon," + "7" * (4096 - len(EXAMPLE) + 2)), "refused 5 line 1")
    trial("4,097 line feeds: refusal 1 before the first line's own", "\n" * 4097, "refused 1 line 0")


def missing_lines():
    trial("an empty sheet", "", "refused 2 line 1")
    trial("the first line has no line feed, and is wrong too", "horizon", "refused 2 line 1")
    trial("nothing behind the horizon", "horizon,60\n", "refused 2 line 2")
    trial("the second of three names is missing", "horizon,60\nevents,3\nstart\n", "refused 2 line 4")
    trial("the last rule has no line feed", EXAMPLE[:-1], "refused 2 line 11")
    trial("the last rule is missing", line(11, None), "refused 2 line 11")


def wrong_fields():
    trial("another section word", line(1, "Horizon,60"), "refused 3 line 1")
    trial("a section without its number", line(1, "horizon"), "refused 3 line 1")
    trial("a section with a comma too many", line(2, "events,3,"), "refused 3 line 2")
    trial("an empty line where a section is due", line(6, "\nsignals,1"), "refused 3 line 6")
    trial("sections in another order", line(6, "rules,0"), "refused 3 line 6")
    trial("a comma in the line of a name", line(4, "call,"), "refused 3 line 4")
    trial("a signal with one field", line(7, "p"), "refused 3 line 7")
    trial("an empty line where a signal is due", line(7, ""), "refused 3 line 7")
    trial("a rule without a label", line(9, "min,start,call,5"), "refused 3 line 9")
    trial("a rule with six fields", line(10, "min,call,door,15,p,-"), "refused 3 line 10")
    trial("an empty line where a rule is due", line(11, ""), "refused 3 line 11")
    trial("another kind", line(9, "mid,start,call,5,-"), "refused 3 line 9")


def numbers():
    for text in ["", "-", "-0", "+5"]:
        trial(f"the number {text!a} is ill-formed", line(1, "horizon," + text), "refused 4 line 1")
    trial("a count with a leading zero", line(6, "signals,01"), "refused 4 line 6")
    trial("the limit -05", line(9, "min,start,call,-05,-"), "refused 4 line 9")
    trial("the limit 5-", line(10, "min,call,door,5-,p"), "refused 4 line 10")
    trial("lines that end in CR LF", EXAMPLE.replace("\n", "\r\n"), "refused 4 line 1")


def ranges():
    trial("no events", line(2, "events,0"), "refused 5 line 2")
    trial("17 events", line(2, "events,17"), "refused 5 line 2")
    trial("5 signals", line(6, "signals,5"), "refused 5 line 6")
    trial("-1 rules", line(8, "rules,-1"), "refused 5 line 8")
    trial("2^64 + 5 is beyond the range, not 5", line(9, "min,start,call,18446744073709551621,-"), "refused 5 line 9")
    trial("5 - 2^64 is beyond the range, not 5", line(9, "min,start,call,-18446744073709551611,-"), "refused 5 line 9")
    trial("the limit 10081", line(11, "max,start,door,10081,-"), "refused 5 line 11")
    trial("the limit -10081", line(11, "max,start,door,-10081,-"), "refused 5 line 11")
    widest = sheet("start door", rules=["max,start,door,10080,-", "min,start,door,-10080,-", "min,start,door,10080,-"], horizon=10080)
    trial("limits at both ends", widest, "accepted 10080 2 0 3\ncase,start,door\n-,0,10080")
    trial("horizon 0, all events in one minute", sheet("start door", rules=["max,start,door,0,-", "min,start,door,0,-"], horizon=0), "accepted 0 2 0 2\ncase,start,door\n-,0,0")


def names():
    trial("names of 8 bytes and of 1", sheet("abcdefgh z a1234567"), "accepted 60 3 0 0\ncase,abcdefgh,z,a1234567\n-,0,0,0")
    trial("a name of 9 bytes", line(3, "abcdefghi"), "refused 6 line 3")
    trial("an empty line where a name is due", line(4, ""), "refused 6 line 4")
    trial("a name with a capital", line(5, "Door"), "refused 6 line 5")
    trial("a name that begins with a digit", line(5, "1door"), "refused 6 line 5")
    trial("words of the sheet as names, and a letter as a name", sheet("rules max p", ["p,p"], ["min,max,p,1,p"]), "accepted 60 3 1 1\ncase,rules,max,p\nF,0,0,1\nT,0,0,1")
    trial("a signal's letter is a capital", line(7, "P,call"), "refused 6 line 7")
    trial("a signal's letter is empty", line(7, ",call"), "refused 6 line 7")
    trial("a signal with two letters", line(7, "pq,call"), "refused 6 line 7")
    trial("a signal's event is ill-formed where it is used", line(7, "p,Call"), "refused 6 line 7")
    trial("a rule's event is ill-formed where it is used", line(9, "min,start,,5,-"), "refused 6 line 9")


def labels():
    for text in ["", "!", "!!p", "p!", "p-"]:
        trial(f"the label {text!a} is ill-formed", line(10, "min,call,door,15," + text), "refused 6 line 10")
    negated = line(10, "min,call,door,15,!p")
    trial("the label !p", negated, "accepted 60 3 1 3\ncase,start,call,door\nF,0,5,20\nT,0,5,6")
    two = sheet("start call door", ["p,start", "q,call"], ["min,start,call,2,-", "min,call,door,5,p!q"])
    trial("the label p!q", two, "accepted 60 3 2 2\ncase,start,call,door\nFF,0,2,1\nTF,0,2,7\nFT,0,2,1\nTT,0,2,3")
    trial("the label !q!p, in another order than the signals", two.replace("p!q", "!q!p"), "accepted 60 3 2 2\ncase,start,call,door\nFF,0,2,7\nTF,0,2,1\nFT,0,2,3\nTT,0,2,1")
    trial("a letter twice with one sign", line(10, "min,call,door,15,pp"), "refused 9 line 10")
    trial("a letter twice, another between", two.replace("p!q", "!pq!p"), "refused 9 line 11")


def odd_bytes():
    """Spaces, CR, NUL and bytes over 127 have no refusal of their own: each kind of field refuses them as it does others."""
    for text, number in [(" rules,3", 3), ("rules\r,3", 3), ("r\xfales,3", 3), ("rules,3 ", 4), ("rules,3\0", 4), ("rules,\xb3", 4)]:
        trial(f"a section line {text!a}", line(8, text), f"refused {number} line 8")
    for text in ["call ", "call\r", "ca\0l", "c\xe1ll"]:
        trial(f"the name {text!a}", line(4, text), "refused 6 line 4")
    for text in [" ,call", "\xfe,call", "p,call\r", "p,call\0"]:
        trial(f"the signal {text!a}", line(7, text), "refused 6 line 7")
    for text, number in [("min ,start,call,5,-", 3), ("m\0n,start,call,5,-", 3), ("min,start,call,5\r,-", 4), ("min,start,call,\xb5,-", 4)]:
        trial(f"the rule {text!a}", line(9, text), f"refused {number} line 9")
    for text in ["- ", "p\r", "p\0", "\xfe"]:
        trial(f"the label {text!a}", line(10, "min,call,door,15," + text), "refused 6 line 10")


def definitions():
    trial("an event name a second time", line(5, "start"), "refused 7 line 5")
    trial("a letter a second time", sheet("start call", ["p,start", "p,call"]), "refused 7 line 7")
    trial("an event that already gives a signal", sheet("start call", ["p,call", "q,call"]), "refused 7 line 7")
    trial("a signal at an undefined event", line(7, "p,cal"), "refused 8 line 7")
    trial("a rule from an undefined event", line(9, "min,begin,call,5,-"), "refused 8 line 9")
    trial("a rule to an undefined event", line(11, "max,start,doors,30,-"), "refused 8 line 11")
    trial("an undefined letter behind a defined one", line(10, "min,call,door,15,pq"), "refused 8 line 10")
    trial("a label where there is no signal", sheet("start", rules=["max,start,start,0,p"]), "refused 8 line 6")


def endings():
    trial("a rule too many: not the heading of the reactions", EXAMPLE + "max,start,door,30,-\n", "refused 3 line 12")
    trial("one lone line feed behind the rules", EXAMPLE + "\n", "refused 3 line 12")
    trial("a byte without a line feed behind the rules", sheet("start") + "x", "refused 2 line 6")


def two_faults():
    trial("one line, a kind and a number: 3", line(9, "mid,start,call,05,-"), "refused 3 line 9")
    trial("one line, a number and a name: 4", line(9, "min,Start,call,05,-"), "refused 4 line 9")
    trial("one line, a range and a label: 5", line(9, "min,start,call,10081,!"), "refused 5 line 9")
    trial("one line, an undefined event and an ill-formed label: 6", line(9, "min,begin,call,5,p!"), "refused 6 line 9")
    trial("one line, a letter twice and an undefined event: 7", sheet("start call", ["p,start", "p,door"]), "refused 7 line 7")
    trial("one line, the event's second signal and an ill-formed letter: 6", sheet("start call", ["p,call", "Q,call"]), "refused 6 line 7")
    trial("one line, an undefined letter twice: 8", line(10, "min,call,door,15,qq"), "refused 8 line 10")
    trial("two lines: the first decides, 9 before 3", line(11, "max", of=line(10, "min,call,door,15,pp")), "refused 9 line 10")
    trial("two lines: a fault in a rule before bytes behind the last", line(11, "max,start,door,30,q") + "x", "refused 8 line 11")


def full_sheets():
    truths = [f"{case:04b}"[::-1].replace("0", "F").replace("1", "T") for case in range(16)]
    events = ["start"] + [f"e{i}" for i in range(1, 16)]
    rules = [f"min,start,e{i},{i},-" for i in range(1, 16)] + ["min,e4,e15,20,a!b!c!d"] * 49
    # e15 waits for 24 where a alone is true, which is case 8; all signals are heard by minute 5
    rows = [f"{truths[case]}," + ",".join(map(str, range(15))) + (",24" if case == 8 else ",15") for case in range(16)]
    trial("16 events, 4 signals, 64 rules, one of them 49 times", sheet(" ".join(events), ["d,e1", "c,e2", "b,e3", "a,e4"], rules),
          "\n".join(["accepted 60 16 4 64", "case," + ",".join(events), *rows]))
    signals = ["z,a", "y,b", "x,c", "w,d"]
    rules = [f"min,start,{event},{minute},-" for event, minute in zip("abcd", range(1, 5))]
    rules += [f"min,start,door,{minute},{letter}" for letter, minute in zip("zyxw", (10, 20, 30, 40))]
    # where no signal is true the door must wait until the last of them, at 4, is heard
    doors = [5, 10] + [20] * 2 + [30] * 4 + [40] * 8
    trial("four signals: the first of the sheet has weight 1", sheet("start a b c d door", signals, rules),
          "\n".join(["accepted 60 6 4 8", "case,start,a,b,c,d,door"] + [f"{truths[case]},0,1,2,3,4,{doors[case]}" for case in range(16)]))


def tables():
    late()
    broken_rules()
    unheard()
    wrong_lengths()


def late():
    trial("judged: the least good table", EXAMPLE, "accepted 60 3 1 3\njudged pass\ncase,start,call,door\nF,0,5,6\nT,0,5,20", [0, 5, 6, 0, 5, 20])
    trial("judged: a good table that is not the least, door at the limit", EXAMPLE, "accepted 60 3 1 3\njudged pass\ncase,start,call,door\nF,0,7,30\nT,0,7,30", [0, 7, 30, 0, 7, 30])
    trial("judged: the start at 1 in case 0", EXAMPLE, "accepted 60 3 1 3\njudged late 0 0\n...", [1, 5, 6, 0, 5, 20])
    trial("judged: the start at 1 in case 1", EXAMPLE, "accepted 60 3 1 3\njudged late 1 0\n...", [0, 5, 6, 1, 5, 20])
    trial("judged: the last cell over the horizon", EXAMPLE, "accepted 60 3 1 3\njudged late 1 2\n...", [0, 5, 6, 0, 5, 61])
    free = sheet("start door", ["p,start"])
    trial("judged: all at the horizon exactly", free, "accepted 60 2 1 0\njudged pass\ncase,start,door\nF,0,60\nT,0,60", [0, 60, 0, 60])
    trial("judged: Late in case 1 comes before Rule in case 0", EXAMPLE, "accepted 60 3 1 3\njudged late 1 1\n...", [0, 4, 6, 0, 61, 20])
    shown = "accepted 60 2 1 0\njudged {}\ncase,start,door\nF,{}\nT,{}"
    trial("judged: 65535 throughout", free, shown.format("late 0 0", "-,-", "-,-"), [65535] * 4)
    trial("judged: 65535 in the last cell", free, shown.format("late 1 1", "0,60", "0,-"), [0, 60, 0, 65535])
    week = sheet("start door", rules=["min,start,door,257,-"], horizon=10080)
    trial("judged: 10080 of 10080", week, "accepted 10080 2 0 1\njudged pass\ncase,start,door\n-,0,10080", [0, 10080])
    trial("judged: 10081 of 10080", week, "accepted 10080 2 0 1\njudged late 0 1\ncase,start,door\n-,0,10081", [0, 10081])
    trial("judged: 257, both bytes counted", week, "accepted 10080 2 0 1\njudged pass\ncase,start,door\n-,0,257", [0, 257])


def broken_rules():
    trial("judged: min broken by one", EXAMPLE, "accepted 60 3 1 3\njudged rule 0 0\n...", [0, 4, 6, 0, 5, 20])
    trial("judged: min broken by one where the label holds", EXAMPLE, "accepted 60 3 1 3\njudged rule 1 1\n...", [0, 5, 6, 0, 5, 19])
    trial("judged: max broken by one", EXAMPLE, "accepted 60 3 1 3\njudged rule 1 2\n...", [0, 5, 6, 0, 5, 31])
    fixed = sheet("start door", rules=["max,start,door,20,-", "min,start,door,20,-"])
    trial("judged: the max and the min of one difference, broken by one below", fixed, "accepted 60 2 0 2\njudged rule 0 1\ncase,start,door\n-,0,19", [0, 19])
    trial("judged: the max and the min of one difference, broken by one above", fixed, "accepted 60 2 0 2\njudged rule 0 0\ncase,start,door\n-,0,21", [0, 21])
    trial("judged: by case and then rule", EXAMPLE, "accepted 60 3 1 3\njudged rule 0 2\n...", [0, 5, 31, 0, 4, 20])
    trial("judged: Rule in case 1 comes before Unheard in case 0", EXAMPLE, "accepted 60 3 1 3\njudged rule 1 1\n...", [0, 6, 6, 0, 5, 7])
    own = sheet("start door", rules=["min,door,door,0,-", "max,door,door,-1,-", "max,door,door,-1,-"])
    trial("judged: a rule from an event to itself, repeated; the first is named", own, "accepted 60 2 0 3\njudged rule 0 1\ncase,start,door\n-,0,3", [0, 3])
    trial("judged: a sheet without a good table", line(11, "max,start,door,19,-"), "accepted 60 3 1 3\njudged rule 1 2\n...", [0, 5, 6, 0, 5, 20])


def unheard():
    astray = sheet("start door call", ["p,call"])
    trial("judged: the signal's minute is the one in s", astray, "accepted 60 3 1 0\njudged unheard 0 1 1\ncase,start,door,call\nF,0,3,5\nT,0,4,2", [0, 3, 5, 0, 4, 2])
    trial("judged: a signal is not heard in its own minute", astray, "accepted 60 3 1 0\njudged unheard 0 1 1\n...", [0, 5, 5, 0, 6, 5])
    trial("judged: it is heard a minute later", astray, "accepted 60 3 1 0\njudged pass\n...", [0, 6, 5, 0, 7, 5])
    trial("judged: a breach that shows from case 1 only", astray, "accepted 60 3 1 0\njudged unheard 1 0 1\n...", [0, 6, 5, 0, 5, 5])
    trial("judged: a signal at the start is heard from minute 1", sheet("start door", ["p,start"]), "accepted 60 2 1 0\njudged unheard 1 0 1\n...", [0, 1, 0, 0])
    two = sheet("start a b door", ["p,a", "q,b"])
    rows = lambda doors, a=9, b=9: [minute for door in doors for minute in (0, a, b, door)]
    trial("judged: first breach between cases that differ in two signals", two, "accepted 60 4 2 0\njudged unheard 0 3 3\n...", rows([4, 4, 4, 5]))
    trial("judged: r before u in the search", two, "accepted 60 4 2 0\njudged unheard 0 1 3\n...", [0, 9, 9, 4, 0, 9, 9, 5, 0, 8, 9, 4, 0, 9, 9, 4])
    trial("judged: the lowest event of two", two, "accepted 60 4 2 0\njudged unheard 0 2 1\n...", [0, 9, 9, 4, 0, 9, 9, 4, 0, 8, 9, 5, 0, 9, 9, 4])
    trial("judged: cases 0 and 1 told apart, the breach at cases 1 and 3", two, "accepted 60 4 2 0\njudged unheard 1 3 3\n...", rows([6, 7, 6, 8], a=2))
    three = sheet("start a b c door", ["p,a", "q,b", "r,c"])
    doors = lambda doors: [minute for door in doors for minute in (0, 9, 9, 9, door)]
    trial("judged: first breach between cases that differ in three signals", three, "accepted 60 5 3 0\njudged unheard 0 7 4\n...", doors([4] * 7 + [5]))
    trial("judged: three signals, the breach in two of them", three, "accepted 60 5 3 0\njudged unheard 0 6 4\n...", doors([4] * 6 + [5] * 2))
    four = sheet("start a b c d", ["p,a", "q,b", "r,c", "s,d"])
    trial("judged: 16 cases that cannot be told apart but for the last", four, "accepted 60 5 4 0\njudged unheard 0 15 4\n...", [0, 1, 1, 1, 1] * 15 + [0, 1, 1, 1, 2])


def wrong_lengths():
    trial("a table one minute short", EXAMPLE, "accepted 60 3 1 3\njudged refused 11 line 0\nlisted refused 11 line 0", [0, 5, 6, 0, 5])
    trial("a table one minute long", EXAMPLE, "accepted 60 3 1 3\njudged refused 11 line 0\nlisted refused 11 line 0", [0, 5, 6, 0, 5, 20, 0])
    trial("a byte too many: refused by the judge, listed by its whole pairs", EXAMPLE, "accepted 60 3 1 3\njudged refused 11 line 0\ncase,start,call,door\nF,0,5,6\nT,0,5,20", [0, 5, 6, 0, 5, 20], b"\0")
    trial("a byte too few", EXAMPLE, "accepted 60 3 1 3\njudged refused 11 line 0\nlisted refused 11 line 0", [0, 5, 6, 0, 5], b"\x14")
    trial("a refused sheet: its own refusal, with an odd table too", line(4, "start"), "refused 7 line 4\njudged refused 7 line 4\nlisted refused 7 line 4", [0, 5, 6], b"\0")


def house_forms():
    one_procedure()
    about_64_rows()
    limits()
    rows_and_labels()


def zeros(events, signals=0):
    """The listing of a table with minute 0 throughout."""
    truths = [f"{case:0{signals}b}"[::-1].replace("0", "F").replace("1", "T") if signals else "-" for case in range(2**signals)]
    return "\n".join(["", "case," + ",".join(events.split())] + [row + ",0" * len(events.split()) for row in truths])


def turned(rule):
    """A `max` or `min` rule from its other end."""
    kind, start, end, limit, label = rule.split(",")
    return ",".join([{"max": "min", "min": "max"}[kind], end, start, str(-int(limit)), label])


def both(*rows):
    """A `max` and a `min` for each row, of which all but the kind is told."""
    return [f"{kind},{row}" for row in rows for kind in ("max", "min")]


def one_procedure():
    events, signals = "start call door vault", ["p,start", "q,call"]
    table = "case,start,call,door,vault\nFF,0,5,1,4\nTF,0,5,20,1\nFT,0,5,1,4\nTT,0,5,6,1"
    one = lambda about, rules, house="as before", **former: trial("one procedure, " + about, sheet(events, signals, rules), f"accepted 60 4 2 {len(rules)}\n{table}", house=house, **former)
    first = ["max,start,call,10,-", "min,start,call,5,-", "min,call,door,15,p!q", "max,start,door,30,-", "max,door,vault,3,!p", "min,door,vault,3,!p", "max,start,vault,50,q!p"]
    rows = ["max,start,call,10,-", "max,start,door,30,-", "max,start,vault,50,!pq", "max,call,start,-5,-", "max,door,call,-15,p!q", "max,door,vault,3,!p", "max,vault,door,-3,!p"]
    fixed = lambda row: {"former": (sheet(events, signals, first[:4] + [row] + first[6:]), "refused 22 line 15")}
    slack = ["max,start,call,11,-", "min,start,call,-5,-", "min,call,door,14,p!q", "max,start,door,10080,-", "max,door,vault,4,!p", "min,door,vault,-10080,!p", "max,start,vault,51,q!p"]
    permuted = first[:2] + ["min,call,door,15,!qp"] + first[3:6] + ["max,start,vault,50,!pq"]
    one("as its maker typed it", first, sheet(events, signals, rows))
    one("rows shuffled", [first[place] for place in (4, 0, 6, 3, 1, 5, 2)])
    one("each row twice", [rule for rule in first for _ in range(2)])
    one("a fix for one max and min, converted first", first, **fixed("fix,door,vault,3,!p"))
    one("min for max and max for min", [turned(rule) for rule in first])
    one("the fix from its other end, converted first", first[:4] + ["max,vault,door,-3,!p", "min,vault,door,-3,!p"] + first[6:], **fixed("fix,vault,door,-3,!p"))
    one("min rows only", [rule if rule.startswith("min") else turned(rule) for rule in first])
    one("labels in another order", permuted)
    one("doubles with slack behind the rows", first + slack)
    one("doubles with slack before the rows, from their other ends", [turned(rule) for rule in slack] + first)
    one("all of this", slack[3:] + permuted[:3] + [turned(rule) for rule in slack] + permuted[4:] + first[::-1] + ["min,vault,door,-3,!p"] + rows)
    one("as its house form", rows)
    one("as its house form from the end", rows[::-1])
    # q has weight 1 now: cases 1 and 2 change places
    swapped = "accepted 60 4 2 7\ncase,start,call,door,vault\nFF,0,5,1,4\nTF,0,5,1,4\nFT,0,5,20,1\nTT,0,5,6,1"
    other = rows[:2] + ["max,start,vault,50,q!p", "max,call,start,-5,-", "max,door,call,-15,!qp"] + rows[5:]
    trial("its signals the other way round: another form", sheet(events, signals[::-1], first), swapped, house=sheet(events, signals[::-1], other))


def about_64_rows():
    eight, nine, twelve = [" ".join(f"e{i}" for i in range(count)) for count in (8, 9, 12)]
    count_up = lambda count: "\ncase," + ",".join(f"e{i}" for i in range(count)) + "\n-," + ",".join(map(str, range(count)))
    full = [f"max,e{i},e{j},{100 * i + j},-" for i in range(8) for j in range(8)]
    trial("64 `max` rows, from the end: 64 rows left", sheet(eight, rules=full[::-1]), "accepted 60 8 0 64" + zeros(eight), house=sheet(eight, rules=full))
    own = full[:-1] + ["min,e7,e7,0,-"]
    trial("63 `max` rows and a `min` from an event to itself: 64 rows left", sheet(eight, rules=own), "accepted 60 8 0 64" + zeros(eight), house=sheet(eight, rules=full[:-1] + ["max,e7,e7,0,-"]))
    # 36 pairs of 9 events, without the two that are 7 apart, the one 8 apart and one more
    ends = [(i, j) for i in range(9) for j in range(9) if 0 < abs(i - j) < 7 and {i, j} != {0, 1}]
    pairs = [f"e{i},e{j},{j - i},-" for i, j in ends if i < j]
    trial("32 `fix` rows, converted first: 64 rows", sheet(nine, rules=both(*pairs)), "accepted 60 9 0 64" + count_up(9), house=sheet(nine, rules=[f"max,e{i},e{j},{j - i},-" for i, j in ends]),
          former=(sheet(nine, rules=["fix," + pair for pair in pairs]), "refused 22 line 14"))
    over = sheet(eight + " x", rules=full[:-1] + ["fix,e7,x,0,-"])
    refuse_former("63 `max` rows and a `fix`: 65 rows would result", over, "refused 17 line 0", "refused 22 line 77")
    refuse_former("65 rows would result, and a byte follows the rules: 2", over + "x", "refused 2 line 78", "refused 22 line 77")
    fixes = [f"fix,e{i},e{j},{j - i},-" for i in range(12) for j in range(i + 1, 12)]
    refuse_former("64 `fix` rows: 128 rows would result", sheet(twelve, rules=fixes[:64]), "refused 17 line 0", "refused 22 line 17")
    merging = sheet("start door", ["p,start"], [f"fix,start,door,{limit},p" for limit in range(1, 65)])
    refuse_former("64 `fix` rows: 128 rows would result, of which two would be left", merging, "refused 17 line 0", "refused 22 line 8")


def limits():
    ends = ["max,start,a,10080,-", "max,start,b,-10080,-", "min,start,c,10080,-", "min,start,d,-10080,-"]
    former = sheet("start a b c d e f", rules=ends + ["fix,start,e,10080,-", "fix,start,f,-10080,-"], horizon=10080)
    ends += both("start,e,10080,-", "start,f,-10080,-")
    rows = ["max,start,a,10080,-", "max,start,b,-10080,-", "max,start,e,10080,-", "max,start,f,-10080,-"]
    rows += ["max,c,start,-10080,-", "max,d,start,10080,-", "max,e,start,-10080,-", "max,f,start,10080,-"]
    form = sheet("start a b c d e f", rules=rows, horizon=10080)
    trial("limits at both ends, of each kind, converted first", sheet("start a b c d e f", rules=ends, horizon=10080), "accepted 10080 7 0 8" + NO_TABLE, house=form,
          former=(former, "refused 22 line 16"))
    events = " ".join("abcdefghijklmnop")
    near = ["max,a,b,0,-", "min,c,d,0,-", "fix,e,f,0,-", "max,g,h,1,-", "min,g,h,1,-", "fix,i,j,1,-", "max,k,l,-1,-", "min,m,n,-1,-", "fix,o,p,-1,-"]
    former = (sheet(events, rules=near), "refused 22 line 23")
    near = near[:2] + both("e,f,0,-", "g,h,1,-", "i,j,1,-") + near[6:8] + both("o,p,-1,-")
    rows = ["max,a,b,0,-", "max,d,c,0,-", "max,e,f,0,-", "max,f,e,0,-", "max,g,h,1,-", "max,h,g,-1,-", "max,i,j,1,-", "max,j,i,-1,-", "max,k,l,-1,-", "max,n,m,1,-", "max,o,p,-1,-", "max,p,o,1,-"]
    table = "\ncase,a,b,c,d,e,f,g,h,i,j,k,l,m,n,o,p\n-,0,0,0,0,0,0,0,1,0,1,1,0,0,0,1,0"
    trial("limits 0, 1 and -1, of each kind, converted first", sheet(events, rules=near), "accepted 60 16 0 12" + table, house=sheet(events, rules=rows), former=former)
    own = ["fix,f,f,0,-", "max,start,start,5,-", "max,a,a,-5,p", "max,a,a,5,-", "min,b,b,5,-", "min,c,c,-5,-", "fix,d,d,5,-", "fix,e,e,-5,-", "max,g,g,0,-", "min,g,g,0,-"]
    former = (sheet("start a b c d e f g", ["p,start"], own), "refused 22 line 14")
    own = both("f,f,0,-") + own[1:6] + both("d,d,5,-", "e,e,-5,-", "g,g,0,-")
    rows = ["max,start,start,5,-", "max,a,a,5,-", "max,a,a,-5,p", "max,b,b,-5,-", "max,c,c,5,-", "max,d,d,-5,-", "max,e,e,-5,-", "max,f,f,0,-", "max,g,g,0,-"]
    form = sheet("start a b c d e f g", ["p,start"], rows)
    trial("rules from an event to itself, of each kind, converted first", sheet("start a b c d e f g", ["p,start"], own), "accepted 60 8 1 13" + NO_TABLE, house=form, former=former)


def rows_and_labels():
    events, signals = "start b a", ["z,b", "y,a"]
    ends = [f"max,{start},{end}" for start in events.split() for end in events.split()]
    # all labels of two signals: no letter true, then z, then y, then both
    labels = ["-", "!z", "!y", "!z!y", "z", "z!y", "y", "!zy", "zy"]
    rows = [f"{row},10,-" for row in ends[:5]] + [f"max,b,a,{9 - place},{label}" for place, label in enumerate(labels)] + [f"{row},0,-" for row in ends[6:]]
    trial("rows ordered by from, to, true letters and false letters", sheet(events, signals, rows[::-1]), "accepted 60 3 2 17" + zeros(events, 2), house=sheet(events, signals, rows))
    events, signals = "start door", ["p,start", "q,door"]
    signs = [f"max,start,door,{text}" for text in ("20,!p", "10,p", "40,!q!p", "30,!qp", "25,!pq", "15,qp", "41,!p!q")] + ["min,door,start,-11,p"]
    rows = [f"max,start,door,{text}" for text in ("20,!p", "40,!p!q", "10,p", "30,p!q", "25,!pq", "15,pq")]
    trial("labels that differ in a sign only", sheet(events, signals, signs), "accepted 60 2 2 8" + zeros(events, 2), house=sheet(events, signals, rows))
    stay = [f"max,{text}" for text in ("door,door,5,-", "start,door,30,p", "start,door,30,-", "start,door,10080,!p", "door,start,60,p", "door,start,0,-")]
    rows = [f"max,{text}" for text in ("start,door,30,-", "start,door,10080,!p", "start,door,30,p", "door,start,0,-", "door,start,60,p", "door,door,5,-")]
    trial("rows that no table can break, or that others imply, stay", sheet(events, signals, stay), "accepted 60 2 2 6" + zeros(events, 2), house=sheet(events, signals, rows))
    events, signals = "start a b c", ["s,start", "r,a", "q,b", "p,c"]
    signed = [[("" if case >> place & 1 else "!") + letter for place, letter in enumerate("srqp")] for case in range(16)]
    rows = [f"max,start,c,{20 - case},{''.join(label)}" for case, label in enumerate(signed)]
    typed = [f"max,start,c,{20 - case},{''.join(label[case % 4 :] + label[: case % 4])}" for case, label in enumerate(signed)]
    typed = [turned(rule) if place % 3 == 0 else rule for place, rule in enumerate(typed[::-1])]
    trial("labels of four signed letters, in another order than the signals", sheet(events, signals, typed), "accepted 60 4 4 16" + zeros(events, 4), house=sheet(events, signals, rows))
    events, signals = " ".join(f"event{i:03}" for i in range(16)), [f"{letter},event{i:03}" for i, letter in enumerate("wxyz")]
    rows = [f"max,event{i:03},event{j:03},-10080,!w!x!y!z" for i in range(12, 16) for j in range(16)]
    typed = [turned(rule).replace("!w!x!y!z", "!z!x!w!y") if place % 2 else rule for place, rule in enumerate(rows[::-1])]
    form = sheet(events, signals, rows, horizon=10080)
    assert len(form) == 2663
    trial("the longest form without reactions, 2,663 bytes", sheet(events, signals, typed, horizon=10080),
          "accepted 10080 16 4 64" + NO_TABLE, house=form)
    bare = sheet("start door", ["p,door"])
    trial("a sheet without rules is its own form", bare, "accepted 60 2 1 0" + zeros("start door", 1), house=bare)


def reactions():
    """The example has its reactions from line 12 on."""
    felt_reactions()
    ill_told_reactions()
    their_lines()
    around_their_end()
    judged_reactions()
    asked_reactions()
    listed_reactions()


def slow(of, *lines, count=None):
    """A sheet with reactions behind it, and another count than that of their lines at times."""
    return of + "".join(text + "\n" for text in [f"reactions,{len(lines) if count is None else count}", *lines])


EXAMPLE_ROWS = ["max,start,door,30,-", "max,call,start,-5,-", "max,door,call,-15,p"]
EXAMPLE_FORM = sheet("start call door", ["p,call"], EXAMPLE_ROWS)
# the call at 5 gives p, the door waits until 100 where p is true
LONG = sheet("start call door", ["p,call"], ["min,start,call,5,-", "min,start,door,100,p"], horizon=120)
LONG_FORM = sheet("start call door", ["p,call"], ["max,call,start,-5,-", "max,door,start,-100,p"], horizon=120)
# the start gives p, the call at 2 gives q
PAIR_RULES = ["min,start,call,2,-", "min,start,door,20,p", "min,start,door,10,q"]
PAIR = sheet("start call door", ["p,start", "q,call"], PAIR_RULES)
PAIR_ROWS = ["max,call,start,-2,-", "max,door,start,-20,p", "max,door,start,-10,q"]
PAIR_FORM = sheet("start call door", ["p,start", "q,call"], PAIR_ROWS)


def felt_reactions():
    trial("p counts after 1 minute: as without the line", slow(EXAMPLE, "p,1"), LISTING, house=EXAMPLE_FORM)
    trial("no lines of reactions", slow(EXAMPLE), LISTING, house="as before")
    trial("no section of reactions", EXAMPLE, LISTING, house="as before")
    # where p is false, the door goes with that of the other case, at 20, until p counts
    door = lambda minute: f"accepted 60 3 1 3\ncase,start,call,door\nF,0,5,{minute}\nT,0,5,20"
    for minutes in (2, 14, 15, 16):
        about = f"p counts after {minutes} minutes: the door at {min(5 + minutes, 20)} where it is false"
        trial(about, slow(EXAMPLE, f"p,{minutes}"), door(min(5 + minutes, 20)),
              house=slow(EXAMPLE_FORM, f"p,{minutes}"))
    long = "accepted 120 3 1 2\ncase,start,call,door\nF,0,5,65\nT,0,5,100"
    trial("p counts after 60 minutes: the door at 65 where it is false", slow(LONG, "p,60"), long,
          house=slow(LONG_FORM, "p,60"))
    late = sheet("start call door", ["p,call"], ["min,start,call,5,-", "min,start,door,50,p"], horizon=64)
    form = sheet("start call door", ["p,call"], ["max,call,start,-5,-", "max,door,start,-50,p"], horizon=64)
    never = "accepted 64 3 1 2\ncase,start,call,door\nF,0,5,50\nT,0,5,50"
    trial("p counts a minute after the horizon: never", slow(late, "p,60"), never, house=slow(form, "p,60"))
    pair = "accepted 60 3 2 3\ncase,start,call,door\nFF,0,2,5\nTF,0,2,20\nFT,0,2,10\nTT,0,2,20"
    trial("p counts from 2 and q from 5, in another order than the signals", slow(PAIR, "q,3", "p,2"), pair,
          house=slow(PAIR_FORM, "p,2", "q,3"))
    trial("the same in the order of the signals", slow(PAIR, "p,2", "q,3"), pair, house="as before")
    other = pair.replace("FF,0,2,5", "FF,0,2,4")
    trial("p counts from 3 and q from 4", slow(PAIR, "p,3", "q,2"), other, house=slow(PAIR_FORM, "p,3", "q,2"))
    of_call = lambda *rules: sheet("start call door", ["p,call"], rules)
    eleven = lambda most: of_call("min,start,call,5,-", "min,start,door,10,p", f"max,start,door,{most},!p")
    rows = lambda most: of_call(f"max,start,door,{most},!p", "max,call,start,-5,-", "max,door,start,-10,p")
    two = "accepted 60 3 1 3\ncase,start,call,door\nF,0,5,{}\nT,0,5,10"
    trial("01 trial 11, and p counts after 1 minute", slow(eleven(6), "p,1"), two.format(6), house=rows(6))
    trial("01 trial 11, and p counts after 2 minutes: no table", slow(eleven(6), "p,2"),
          "accepted 60 3 1 3" + NO_TABLE, house=slow(rows(6), "p,2"))
    trial("01 trial 11, with 7 for 6, and p counts after 2 minutes", slow(eleven(7), "p,2"), two.format(7),
          house=slow(rows(7), "p,2"))


def ill_told_reactions():
    for minutes in ("0", "61", "-1", "18446744073709551618"):
        trial(f"the reaction {minutes}", slow(EXAMPLE, "p," + minutes), "refused 5 line 13")
    for minutes in ("", "02", "-0", "+2", "2\r"):
        trial(f"the reaction {minutes!a} is ill-formed", slow(EXAMPLE, "p," + minutes), "refused 4 line 13")
    for letter in ("", "P", "pq", "!p", "call", "\xf0"):
        trial(f"a reaction of {letter!a}", slow(EXAMPLE, letter + ",2"), "refused 6 line 13")
    for text in ("p", "p,2,", ""):
        trial(f"the line {text!a} of reactions", slow(EXAMPLE, text), "refused 3 line 13")
    trial("a letter's second line", slow(EXAMPLE, "p,2", "p,2"), "refused 7 line 14")
    trial("a letter's second line, the first of 1", slow(PAIR, "q,1", "p,2", "q,3"), "refused 7 line 16")
    trial("a reaction of an undefined letter", slow(EXAMPLE, "q,2"), "refused 8 line 13")
    trial("a reaction where there is no signal", slow(sheet("start"), "p,1"), "refused 8 line 7")
    trial("one line, 61 and an ill-formed letter: 5", slow(EXAMPLE, "P,61"), "refused 5 line 13")
    trial("one line, an ill-formed number and an ill-formed letter: 4", slow(EXAMPLE, "P,+2"), "refused 4 line 13")
    trial("one line, a letter's second and 0: 5", slow(EXAMPLE, "p,2", "p,0"), "refused 5 line 14")
    trial("one line, an undefined letter and 61: 5", slow(EXAMPLE, "q,61"), "refused 5 line 13")


def their_lines():
    trial("4 reactions for 2 signals, the third line a letter's second", slow(PAIR, "p,2", "q,3", "p,2", "q,3"),
          "refused 7 line 16")
    trial("4 reactions for 2 signals, the third line an undefined letter", slow(PAIR, "p,2", "q,3", "r,4", "s,5"),
          "refused 8 line 16")
    trial("5 reactions", slow(PAIR, "p,2", "q,3", "r,4", "s,5", "t,6"), "refused 5 line 13")
    trial("-1 reactions", slow(EXAMPLE, count=-1), "refused 5 line 12")
    trial("the count of reactions with a leading zero", slow(EXAMPLE, "p,2", count="01"), "refused 4 line 12")
    trial("the reactions without a count", EXAMPLE + "reactions\n", "refused 3 line 12")
    trial("the reactions with a comma too many", EXAMPLE + "reactions,0,\n", "refused 3 line 12")
    trial("another word for the reactions", EXAMPLE + "reaction,0\n", "refused 3 line 12")
    trial("the reactions before the rules", line(8, "reactions,1\np,2\nrules,3"), "refused 3 line 8")


def around_their_end():
    trial("a reaction too few, and the sheet ends", slow(EXAMPLE, "p,2", count=2), "refused 2 line 14")
    trial("the last reaction has no line feed", slow(EXAMPLE, "p,2")[:-1], "refused 2 line 13")
    trial("the heading of the reactions has no line feed", slow(EXAMPLE)[:-1], "refused 2 line 12")
    trial("a reaction too many: not the heading of the labels", slow(EXAMPLE, "p,2", "p,2", count=1),
          "refused 3 line 14")
    trial("a reaction where 0 are announced", slow(EXAMPLE, "p,2", count=0), "refused 3 line 13")
    trial("the reactions twice", slow(slow(EXAMPLE, "p,2"), "p,2"), "refused 3 line 14")
    trial("one lone line feed behind the reactions", slow(EXAMPLE, "p,2") + "\n", "refused 3 line 14")
    trial("a byte without a line feed behind the reactions", slow(EXAMPLE) + "x", "refused 2 line 13")
    padded = slow(EXAMPLE, "p,2")
    trial("4,096 bytes, most of them behind the reactions", padded + "x" * (4096 - len(padded)), "refused 2 line 14")
    trial("4,097 bytes, most of them behind the reactions", padded + "x" * (4097 - len(padded)), "refused 1 line 0")
    ends = [f"max,e{i},e{j},{100 * i + j},-" for i in range(8) for j in range(8)]
    eight = " ".join(f"e{i}" for i in range(8)) + " x"
    over = slow(sheet(eight, rules=ends[:-1] + ["fix,e7,x,0,-"]))
    refuse_former("65 rows would result, no lines of reactions", over, "refused 17 line 0", "refused 22 line 77")
    refuse_former("65 rows would result, and a byte follows the reactions: 2", over + "x", "refused 2 line 79",
                  "refused 22 line 77")


def judged_reactions():
    two = slow(EXAMPLE, "p,2")
    answer = lambda verdict, door: f"accepted 60 3 1 3\njudged {verdict}\ncase,start,call,door\nF,0,5,{door}\nT,0,5,20"
    trial("judged: the door at 6, good if p counts after 1 minute", slow(EXAMPLE, "p,1"), answer("pass", 6),
          [0, 5, 6, 0, 5, 20], house=EXAMPLE_FORM)
    trial("judged: the same table if p counts after 2", two, answer("unheard 0 1 2", 6), [0, 5, 6, 0, 5, 20],
          house=slow(EXAMPLE_FORM, "p,2"))
    trial("judged: the door at 7, and p counts after 2", two, answer("pass", 7), [0, 5, 7, 0, 5, 20],
          house="as before")
    listed = lambda door: f"case,start,call,door\nF,0,5,{door}\nT,0,5,100"
    answer = lambda verdict, door: f"accepted 120 3 1 2\njudged {verdict}\n{listed(door)}"
    trial("judged: the door at 64, and p counts after 60", slow(LONG, "p,60"), answer("unheard 0 1 2", 64),
          [0, 5, 64, 0, 5, 100], house=slow(LONG_FORM, "p,60"))
    trial("judged: the door at 65, and p counts after 60", slow(LONG, "p,60"), answer("pass", 65),
          [0, 5, 65, 0, 5, 100], house="as before")
    rows = lambda *doors: [minute for door in doors for minute in (0, 2, door)]
    pair = slow(PAIR, "q,3", "p,2")
    trial("judged: p counts from 2 and q from 5", pair, "accepted 60 3 2 3\njudged pass\n...", rows(5, 20, 10, 20),
          house=slow(PAIR_FORM, "p,2", "q,3"))
    trial("judged: p counts and q does not yet", pair, "accepted 60 3 2 3\njudged unheard 0 2 2\n...",
          rows(4, 20, 10, 20), house="as before")
    astray = slow(sheet("start door call", ["p,call"]), "p,3")
    bare = sheet("start door call", ["p,call"]) + "reactions,1\np,3\n"
    # in case 0 p counts from 5 on, in case 1 from 8 on
    trial("judged: a slow signal's minute is the one in s", astray, "accepted 60 3 1 0\njudged unheard 0 1 2\n...",
          [0, 5, 2, 0, 6, 5], house=bare)
    trial("judged: a breach that shows from case 1 only, and p counts after 3", astray,
          "accepted 60 3 1 0\njudged unheard 1 0 1\n...", [0, 8, 5, 0, 7, 5], house="as before")
    trial("judged: 65535 where p counts after 3", astray, "accepted 60 3 1 0\njudged late 0 2\n...",
          [0, 5, 65535, 0, 5, 65535], house="as before")


def asked_reactions():
    door = lambda call, door, last: f"accepted 60 3 1 3\ncase,start,call,door\nF,0,{call},{door}\nT,0,{call},{last}"
    trial("asked at 6: the call at 5 counts after 2, not yet", slow(EXAMPLE, "p,2"), door(5, 7, 20),
          house=slow(EXAMPLE_FORM, "p,2"), 
          asked=["1 0 r16.0 r16.0", "6 0 r16.0 r16.0", "60 r16.0 0 0"])
    four = line(9, "min,start,call,4,-")
    form = sheet("start call door", ["p,call"], [EXAMPLE_ROWS[0], "max,call,start,-4,-", EXAMPLE_ROWS[2]])
    trial("asked at 6: the call at 4 counts after 2, now", slow(four, "p,2"), door(4, 6, 19), house=slow(form, "p,2"),
          asked=["6 r16.0 0 4"])
    trial("asked at 6: the call at 4 counts after 3, not yet", slow(four, "p,3"), door(4, 7, 19),
          house=slow(form, "p,3"), asked=["6 0 r16.0 r16.0"])
    of_start = lambda horizon, rule: slow(sheet("start door", ["p,start"], [rule], horizon=horizon), "p,60")
    start = lambda horizon: of_start(horizon, f"min,start,door,{horizon},p")
    form = lambda horizon: of_start(horizon, f"max,door,start,-{horizon},p")
    both = lambda horizon: f"accepted {horizon} 2 1 1\ncase,start,door\nF,0,{horizon}\nT,0,{horizon}"
    trial("asked at 60: the start counts after 60, now", start(60), both(60), house=form(60),
          asked=["0 1 r16.0 r16.0", "60 r16.0 2 2"])
    trial("asked at 59: the start counts after 60, not yet", start(59), both(59), house=form(59),
          asked=["59 2 r16.0 r16.0", "65535 r16.0 0 0"])


def listed_reactions():
    events, signals = "start call door", ["q,call", "p,start"]
    rules = ["min,start,call,2,-", "min,call,door,3,q!p"]
    form = sheet(events, signals, ["max,call,start,-2,-", "max,door,call,-3,q!p"])
    # q has weight 1; where it is true and p false the door is at 5, and q counts from 4 on, p from 1 on
    table = "accepted 60 3 2 2\ncase,start,call,door\nFF,0,2,4\nTF,0,2,5\nFT,0,2,1\nTT,0,2,1"
    one = lambda about, text, house="as before": trial("slow procedure, " + about, text, table, house=house)
    typed = sheet(events, signals, rules)
    one("reactions of 2 and 1: only the 2 is listed", slow(typed, "q,2", "p,1"), slow(form, "q,2"))
    one("the 1 before the 2", slow(typed, "p,1", "q,2"))
    one("no line of 1", slow(typed, "q,2"))
    turned_rules = [turned(rule) for rule in rules[::-1]]
    one("its rules the other way round", slow(sheet(events, signals, turned_rules), "p,1", "q,2"))
    one("as its house form", slow(form, "q,2"))
    table = table.replace("FF,0,2,4", "FF,0,2,5")
    one("another reaction: another form", slow(typed, "p,1", "q,3"), slow(form, "q,3"))
    table = table.replace("FF,0,2,5", "FF,0,2,3").replace("T,0,2,1", "T,0,2,2")
    one("the other signal's: another form", slow(typed, "p,2", "q,1"), slow(form, "p,2"))
    table = table.replace("FF,0,2,3", "FF,0,2,4")
    one("both, in another order than the signals", slow(typed, "p,2", "q,2"), slow(form, "q,2", "p,2"))
    one("both, in signal order", slow(typed, "q,2", "p,2"))
    events = " ".join(f"event{i:03}" for i in range(16))
    signals = [f"{letter},event{i:03}" for i, letter in enumerate("wxyz")]
    rows = [f"max,event{i:03},event{j:03},-10080,!w!x!y!z" for i in range(12, 16) for j in range(16)]
    lines = [f"{letter},{minutes}" for letter, minutes in zip("wxyz", (60, 10, 59, 11))]
    form = slow(sheet(events, signals, rows, horizon=10080), *lines)
    assert len(form) == 2695
    trial("the longest form without labels, 2,695 bytes",
          slow(sheet(events, signals, rows[::-1], horizon=10080), *lines[::-1]), "accepted 10080 16 4 64" + NO_TABLE,
          house=form)


# 1 the names  2 3 the rows
PRINTED = "case,start,call,door\nF,0,5,6\nT,0,5,20\n"


def returned():
    """Listings that are read back (02, point 4)."""
    printed_back()
    many_rows()
    ends_of_lines()
    misread_names()
    misread_cases()
    misread_fields()
    misread_minutes()
    two_misprints()
    long_listings()
    refused_with_listings()


def reread(about, listing, count, verdict, of=EXAMPLE, accepted="60 3 1 3", house="as before", former=None):
    """So many minutes are recovered; what is accepted prints back to its own bytes."""
    answer = f"accepted {accepted}\nreturned {count} short r12.0\njudged {verdict}\n{listing[:-1]}"
    trial("returned: " + about, of, answer, house=house, listing=listing, former=former)


def misread(about, listing, number, at, of=EXAMPLE, accepted="60 3 1 3", house="as before"):
    trial("returned: " + about, of, f"accepted {accepted}\nreturned refused {number} line {at}", house=house,
          listing=listing)


def printed_back():
    rows = lambda false, true: f"case,start,call,door\nF,{false}\nT,{true}\n"
    reread("as printed", PRINTED, 6, "pass", house=EXAMPLE_FORM)
    reread("good, and not the least", rows("0,7,30", "0,7,30"), 6, "pass")
    reread("the start at 1", rows("1,5,6", "0,5,20"), 6, "late 0 0")
    reread("a minute over the horizon", rows("0,5,6", "0,5,61"), 6, "late 1 2")
    reread("a rule broken", rows("0,5,6", "0,5,19"), 6, "rule 1 1")
    reread("a signal not heard in its own minute", rows("0,5,5", "0,5,20"), 6, "unheard 0 1 2")
    reread("a blank, which is 65535, where the event happens", rows("0,5,-", "0,5,20"), 6, "late 0 2")
    reread("blanks throughout", rows("-,-,-", "-,-,-"), 6, "late 0 0")
    reread("one to four digits", rows("9,10,99", "100,999,1000"), 6, "late 0 0")
    reread("both bytes of a minute", rows("255,256,257", "9999,10000,65534"), 6, "late 0 0")
    retyped = sheet("start call door", ["p,call"], EXAMPLE_ROWS[::-1])
    reread("the same sheet retyped", PRINTED, 6, "pass", of=retyped)
    reread("the same sheet retyped, and the broken rule has another place", rows("0,5,6", "0,5,19"), 6, "rule 1 0",
           of=retyped)
    none = sheet("start call door", ["p,call"], ["max,start,door,19,-"] + EXAMPLE_ROWS[1:])
    reread("a sheet without a good table", PRINTED, 6, "rule 1 2", of=line(11, "max,start,door,19,-"), house=none)
    alone = sheet("start")
    reread("start alone", "case,start\n-,0\n", 1, "pass", of=alone, accepted="60 1 0 0", house=alone)
    reread("start alone, and late", "case,start\n-,1\n", 1, "late 0 0", of=alone, accepted="60 1 0 0")
    words = sheet("case t f")
    reread("words of the listing as names", "case,case,t,f\n-,0,3,60\n", 3, "pass", of=words, accepted="60 3 0 0",
           house=words)
    pair = "case,start,call,door\nFF,0,2,3\nTF,0,2,20\nFT,0,2,10\nTT,0,2,20\n"
    reread("two signals", pair, 12, "pass", of=PAIR, accepted="60 3 2 3", house=PAIR_FORM)
    slow_door()
    eight = " ".join(f"e{i}" for i in range(8)) + " x"
    ends = [f"max,e{i},e{j},{100 * i + j},-" for i in range(8) for j in range(8)]
    full = sheet(eight, rules=ends[:-2] + both("e7,x,0,-"))
    form = sheet(eight, rules=ends[:-2] + ["max,e7,x,0,-", "max,x,e7,0,-"])
    reread("62 `max` rows and a `fix`, converted first", zeros(eight)[1:] + "\n", 9, "pass", of=full,
           accepted="60 9 0 64", house=form,
           former=(sheet(eight, rules=ends[:-2] + ["fix,e7,x,0,-"]), "refused 22 line 76"))


def slow_door():
    """The sheet examples/door.csv; without the reaction of 8 the inner door would open at 4 where c is true."""
    events, signals = "start contact guard inner vault", ["c,contact", "g,guard"]
    rules = ["min,start,contact,3,-", "min,start,guard,10,-", "min,contact,inner,40,!c", "max,start,inner,90,-"]
    rules += ["min,inner,vault,5,-", "min,guard,vault,60,!g"]
    rows = ["max,start,inner,90,-", "max,contact,start,-3,-", "max,guard,start,-10,-", "max,inner,contact,-40,!c"]
    rows += ["max,vault,guard,-60,!g", "max,vault,inner,-5,-"]
    door = slow(sheet(events, signals, rules, horizon=120), "g,1", "c,8")
    form = slow(sheet(events, signals, rows, horizon=120), "c,8")
    text = "case,start,contact,guard,inner,vault\nFF,0,3,10,43,70\nTF,0,3,10,{0},70\n"
    text += "FT,0,3,10,43,48\nTT,0,3,10,{0},16\n"
    reread("the door whose contact counts after 8 minutes", text.format(11), 20, "pass", of=door, accepted="120 5 2 6",
           house=form)
    reread("the same door, too quick for the contact", text.format(4), 20, "unheard 1 0 3", of=door,
           accepted="120 5 2 6")
    misread("the same door, its reactions behind its listing", text.format(11) + "reactions,1\nc,8\n", 18, 6, of=door,
            accepted="120 5 2 6")


FOUR = sheet("start a b c d door", ["z,a", "y,b", "x,c", "w,d"])
# the first signal of the sheet has weight 1; the door is at 10 in case 0, and a minute later in each next case
FOUR_MARKS = "FFFF TFFF FTFF TTFF FFTF TFTF FTTF TTTF FFFT TFFT FTFT TTFT FFTT TFTT FTTT TTTT".split()
FOUR_ROWS = [f"{mark},0,1,2,3,4,{minute}" for mark, minute in zip(FOUR_MARKS, range(10, 26))]


def many_rows():
    listing = lambda rows: "".join(text + "\n" for text in ["case,start,a,b,c,d,door", *rows])
    of = {"of": FOUR, "accepted": "60 6 4 0"}
    reread("16 rows", listing(FOUR_ROWS), 96, "pass", house=FOUR, **of)
    misread("the first signal's letter behind", listing([row[3::-1] + row[4:] for row in FOUR_ROWS]), 18, 3, **of)
    misread("from the last case to the first", listing(FOUR_ROWS[::-1]), 18, 2, **of)
    misread("the last two of 16 rows exchanged", listing(FOUR_ROWS[:14] + FOUR_ROWS[:13:-1]), 18, 16, **of)
    misread("15 of 16 rows", listing(FOUR_ROWS[:15]), 18, 17, **of)
    misread("the seventh of 16 rows missing", listing(FOUR_ROWS[:6] + FOUR_ROWS[7:]), 18, 8, **of)
    misread("17 rows, the last one twice", listing(FOUR_ROWS + FOUR_ROWS[15:]), 18, 18, **of)
    misread("the last of 16 rows with a minute 025", listing(FOUR_ROWS[:15] + ["TTTT,0,1,2,3,4,025"]), 19, 17, **of)
    misread("the first of 16 rows with a minute 010", listing(["FFFF,0,1,2,3,4,010"] + FOUR_ROWS[1:]), 19, 2, **of)
    events = [f"event{i:03}" for i in range(16)]
    most = sheet(" ".join(events), [f"{letter},event{i:03}" for i, letter in enumerate("wxyz")])
    minutes = lambda case: ",".join(str(10000 + 1000 * case + place) for place in range(16))
    rows = [f"{mark},{minutes(case)}" for case, mark in enumerate(FOUR_MARKS)]
    longest = "".join(text + "\n" for text in ["case," + ",".join(events), *rows])
    assert len(longest) == 1765
    reread("the longest listing, 1,765 bytes", longest, 256, "late 0 0", of=most, accepted="60 16 4 0", house=most)


def ends_of_lines():
    misread("an empty listing", "", 18, 1, house=EXAMPLE_FORM)
    misread("a lone line feed", "\n", 18, 1)
    misread("the header alone", "case,start,call,door\n", 18, 2)
    misread("the header alone, without its line feed", "case,start,call,door", 18, 1)
    misread("a row without its line feed", "case,start,call,door\nF,0,5,6", 18, 2)
    misread("no last line feed", PRINTED[:-1], 18, 3)
    misread("the last row ends behind its mark", "case,start,call,door\nF,0,5,6\nT", 18, 3)
    misread("a CR before the header's line feed", line(1, "case,start,call,door\r", PRINTED), 18, 1)
    misread("a CR before a row's line feed", line(2, "F,0,5,6\r", PRINTED), 19, 2)
    misread("a CR before the last line feed", line(3, "T,0,5,20\r", PRINTED), 19, 3)
    misread("a CR behind a row's line feed", line(3, "\rT,0,5,20", PRINTED), 18, 3)
    misread("lines that end in CR LF", PRINTED.replace("\n", "\r\n"), 18, 1)
    misread("rows that end in CR LF", "case,start,call,door\nF,0,5,6\r\nT,0,5,20\r\n", 19, 2)
    misread("lines that end in CR", PRINTED.replace("\n", "\r"), 18, 1)
    misread("an empty line before the header", "\n" + PRINTED, 18, 1)
    misread("an empty line behind the header", line(2, "\nF,0,5,6", PRINTED), 18, 2)
    misread("an empty line between the rows", line(3, "\nT,0,5,20", PRINTED), 18, 3)
    misread("an empty line at the end", PRINTED + "\n", 18, 4)
    misread("a byte behind the last row", PRINTED + "x", 18, 4)
    misread("a NUL behind the last row", PRINTED + "\0", 18, 4)
    misread("the listing twice", PRINTED * 2, 18, 4)


def misread_names():
    header = lambda about, text: misread(about, line(1, text, PRINTED), 18, 1)
    header("names exchanged", "case,start,door,call")
    header("a name missing", "case,start,call")
    header("the first name missing", "case,call,door")
    header("a name more", "case,start,call,door,vault")
    header("a name twice", "case,start,call,call,door")
    header("a name misspelt", "case,start,call,dorr")
    header("a name cut short", "case,start,call,doo")
    header("a name with a letter more", "case,start,call,doors")
    header("a name with a capital", "case,start,call,Door")
    header("an empty name", "case,start,,door")
    header("a comma behind the names", "case,start,call,door,")
    header("a space behind a comma of the header", "case, start,call,door")
    header("a space behind the names", "case,start,call,door ")
    header("a comma less between the names", "case,startcall,door")
    header("the word Case", "Case,start,call,door")
    header("the word cases", "cases,start,call,door")
    header("names without the word", "start,call,door")
    header("semicolons for commas", "case;start;call;door")
    header("three bytes over 127 before the header", "\xef\xbb\xbfcase,start,call,door")
    misread("no header", line(1, None, PRINTED), 18, 1)
    misread("the header behind the rows", "F,0,5,6\nT,0,5,20\ncase,start,call,door\n", 18, 1)
    misread("the header twice", line(1, "case,start,call,door\ncase,start,call,door", PRINTED), 18, 2)
    two = sheet("a ab")
    misread("a comma between other letters of the names", "case,aa,b\n-,0,0\n", 18, 1, of=two, accepted="60 2 0 0",
            house=two)


def misread_cases():
    first = lambda about, text, **of: misread(about, line(2, text, PRINTED), 18, 2, **of)
    first("rows exchanged", "T,0,5,20\nF,0,5,6", house=EXAMPLE_FORM)
    misread("marks exchanged", "case,start,call,door\nT,0,5,6\nF,0,5,20\n", 18, 2)
    misread("the first row twice", line(2, "F,0,5,6\nF,0,5,6", PRINTED), 18, 3)
    misread("the last row twice", line(3, "T,0,5,20\nT,0,5,20", PRINTED), 18, 4)
    misread("the first row missing", line(2, None, PRINTED), 18, 2)
    misread("the last row missing", line(3, None, PRINTED), 18, 3)
    misread("a row more", PRINTED + "FT,0,5,20\n", 18, 4)
    first("the mark f", "f,0,5,6")
    misread("the mark t", line(3, "t,0,5,20", PRINTED), 18, 3)
    first("the mark 0", "0,0,5,6")
    first("the mark - where there is a signal", "-,0,5,6")
    first("no mark", ",0,5,6")
    first("a mark too long", "FF,0,5,6")
    first("a mark with a space before it", " F,0,5,6")
    first("a mark with a space behind it", "F ,0,5,6")
    first("a signal's letter for the mark", "!p,0,5,6")
    pair = lambda marks: "case,start,call,door\n" + "".join(f"{mark},0,2,20\n" for mark in marks.split())
    of = {"of": PAIR, "accepted": "60 3 2 3"}
    misread("a mark too short", pair("F TF FT TT"), 18, 2, house=PAIR_FORM, **of)
    misread("a mark too short in the third row", pair("FF TF T TT"), 18, 4, **of)
    misread("a mark too long in the last row", pair("FF TF FT TTT"), 18, 5, **of)
    misread("FT before TF", pair("FF FT TF TT"), 18, 3, **of)
    misread("the rows of one signal for two", pair("F T"), 18, 2, **of)
    alone = sheet("start")
    of = {"of": alone, "accepted": "60 1 0 0"}
    misread("the mark T where there is no signal", "case,start\nT,0\n", 18, 2, house=alone, **of)
    misread("the rows F and T where there is no signal", "case,start\nF,0\nT,0\n", 18, 2, **of)
    misread("no mark where there is no signal", "case,start\n,0\n", 18, 2, **of)
    misread("the mark -- where there is no signal", "case,start\n--,0\n", 18, 2, **of)
    misread("a second row where there is no signal", "case,start\n-,0\n-,0\n", 18, 3, **of)


def misread_fields():
    first = lambda about, text, **of: misread(about, line(2, text, PRINTED), 18, 2, **of)
    first("a field more", "F,0,5,6,7", house=EXAMPLE_FORM)
    first("a comma behind the minutes", "F,0,5,6,")
    first("a field less", "F,0,5")
    misread("a field less in the last row", line(3, "T,0,5", PRINTED), 18, 3)
    first("a mark alone", "F")
    first("two commas for one", "F,0,,5,6")
    first("a comma less", "F,05,6")
    first("the comma behind the mark missing", "F0,5,6")
    first("spaces for commas", "F 0 5 6")
    first("a comma within a minute", "F,0,5,1,000")
    first("a row in two lines", "F,0,5\n6")
    misread("two rows in one line", "case,start,call,door\nF,0,5,6,T,0,5,20\n", 18, 2)
    misread("minutes for two cases in one row", "case,start,call,door\nF,0,5,6,0,5,20\n", 18, 2)


def misread_minutes():
    of_call = lambda about, text: misread(about, line(2, f"F,0,{text},6", PRINTED), 19, 2)
    for text in ["05", "00", "-0", "+5", "-5", "-1", " 5", "5 "]:
        of_call(f"the minute {text!a}", text)
    reread("the minute '-': a blank", line(2, "F,0,-,6", PRINTED), 6, "late 0 1")
    for text in ["5-", "--5", "0x5", "5.0", "5e0", "five", "F"]:
        of_call(f"the minute {text!a}", text)
    for text in ["\xc8", "5\xc8", "\0", "5\0", "5\r", "\xb5"]:
        of_call(f"the minute {text!a}", text)
    of_call("an empty field", "")
    for text in ["65536", "65541", "99999", "100000", "-65531", "4294967301", "18446744073709551621"]:
        of_call(f"the minute {text}", text)
    of_call("a minute of forty digits", "1234567890" * 4)
    of_call("a minute of forty zeros", "0" * 40)
    of_call("a minute of forty zeros and a 5", "0" * 40 + "5")
    misread("the first minute ill-formed", line(2, "F,00,5,6", PRINTED), 19, 2)
    misread("the last minute ill-formed", line(3, "T,0,5,2O", PRINTED), 19, 3)
    misread("the first minute of the last row over 65535", line(3, "T,65536,5,20", PRINTED), 19, 3)
    misread("the last minute over 65535", line(3, "T,0,5,65536", PRINTED), 19, 3)
    misread("the last field empty", line(3, "T,0,5,", PRINTED), 19, 3)
    misread("all fields empty but the marks", "case,start,call,door\nF,,,\nT,,,\n", 19, 2)
    alone = sheet("start")
    misread("start alone, at -0", "case,start\n-,-0\n", 19, 2, of=alone, accepted="60 1 0 0", house=alone)


def two_misprints():
    rows = lambda about, false, true, number, at, **of: misread(about, f"case,start,call,door\n{false}\n{true}\n",
                                                                number, at, **of)
    rows("a minute, and the next row's mark: 18", "F,0,05,6", "t,0,5,20", 18, 3, house=EXAMPLE_FORM)
    rows("a minute over 65535, and a field less in the next row: 18", "F,0,5,65536", "T,0,5", 18, 3)
    misread("a minute, and no last line feed: 18", "case,start,call,door\nF,0,05,6\nT,0,5,20", 18, 3)
    misread("a minute, and a row missing: 18", "case,start,call,door\nF,0,05,6\n", 18, 3)
    rows("a minute, and an empty line at the end: 18", "F,0,05,6", "T,0,5,20\n", 18, 4)
    rows("a minute of the last row, and a byte behind it: 18", "F,0,5,6", "T,0,5,020\nx", 18, 4)
    rows("one row, a mark and a minute: 18", "f,0,05,6", "T,0,5,20", 18, 2)
    rows("one row, a field less and a minute: 18", "F,0,05", "T,0,5,20", 18, 2)
    misread("one row, a minute and no line feed: 18", "case,start,call,door\nF,0,5,6\nT,0,5,020", 18, 3)
    rows("a mark, and a minute in the next row: 18", "f,0,5,6", "T,0,5,020", 18, 2)
    misread("the header, and a minute: 18", "case,start,call,Door\nF,0,05,6\nT,0,5,20\n", 18, 1)
    rows("two rows, a minute in each: the first", "F,0,5,06", "T,00,5,20", 19, 2)
    rows("two rows, a minute over 65535, then one ill-formed: the first", "F,0,5,65536", "T,+0,5,20", 19, 2)
    rows("one row, two minutes", "F,0,5,6", "T,0,65536,020", 19, 3)
    rows("two rows, a mark in each: the first", "f,0,5,6", "t,0,5,20", 18, 2)
    rows("two rows, a field more, then a mark: the first", "F,0,5,6,7", "t,0,5,20", 18, 2)
    misread("the header, and a row missing: the first", "case,start,call\nF,0,5,6\n", 18, 1)
    rows("a late start, and a minute in the next row: 19", "F,1,5,6", "T,0,5,020", 19, 3)


def long_listings():
    digits = lambda length: PRINTED[:-1] + "0" * (length - len(PRINTED)) + "\n"
    behind = lambda length: PRINTED + "x" * (length - len(PRINTED))
    ahead = lambda length: line(2, "F,0," + "0" * (length - len(PRINTED)) + "5,6", PRINTED)
    assert [len(text(4096)) for text in (digits, behind, ahead)] == [4096] * 3
    misread("4,096 bytes, the last minute of nearly all", digits(4096), 19, 3)
    misread("4,097 bytes, the last minute of nearly all", digits(4097), 18, 1)
    misread("4,096 bytes, most of them behind the last row", behind(4096), 18, 4)
    misread("4,097 bytes, most of them behind the last row", behind(4097), 18, 1)
    misread("4,096 bytes, most of them zeros before a minute", ahead(4096), 19, 2)
    misread("4,097 bytes, most of them zeros before a minute", ahead(4097), 18, 1)
    misread("4,096 bytes, most of them line feeds at the end", PRINTED + "\n" * (4096 - len(PRINTED)), 18, 4)


def refused_with_listings():
    own = lambda about, of, refusal, listing: trial("returned: " + about, of, f"{refusal}\nreturned {refusal}",
                                                    listing=listing)
    own("a refused sheet, and its listing", line(4, "start"), "refused 7 line 4", PRINTED)
    own("a refused sheet before a misread header", line(10, "min,call,door,15,p!p"), "refused 9 line 10",
        line(1, "Case,start,call,door", PRINTED))
    own("a refused sheet before a misread minute", line(11, "max,start,door,-0,-"), "refused 4 line 11",
        line(2, "F,0,05,6", PRINTED))
    own("a refused sheet before 4,097 bytes of listing", EXAMPLE[:-1], "refused 2 line 11", "x" * 4097)
    own("4,097 bytes of sheet, and its listing", EXAMPLE + "x" * (4097 - len(EXAMPLE)), "refused 1 line 0", PRINTED)
    own("bytes behind the reactions, and an empty listing: 2", slow(EXAMPLE, "p,2") + "x", "refused 2 line 14", "")
    own("neither a sheet nor a listing", "", "refused 2 line 1", "")
    own("the listing in the sheet's place, and the sheet in its", PRINTED, "refused 3 line 1", EXAMPLE)
    misread("the sheet in the listing's place", EXAMPLE, 18, 1)


def labelled():
    """Events that only some cases have (02, point 6). The example has its labels from line 13 on."""
    felt_labels()
    covered_rules()
    partly_given()
    rings()
    ill_told_labels()
    label_lines()
    around_the_labels()
    twenty()
    twenty_one()
    judged_labels()
    asked_labels()
    reread_labels()
    listed_labels()


def only(of, *lines, count=None):
    """A sheet with labels behind its reactions, and another count than that of their lines at times."""
    return of + "".join(text + "\n" for text in [f"cases,{len(lines) if count is None else count}", *lines])


# a key at 5 gives the duress signal p; it is turned again only where that is true
KEY_EVENTS, KEY_SIGNALS = "start key again", ["p,key"]
KEY_RULES = ["min,start,key,5,-", "min,key,again,3,-"]
KEY = sheet(KEY_EVENTS, KEY_SIGNALS, KEY_RULES)
KEY_FORM = sheet(KEY_EVENTS, KEY_SIGNALS, ["max,key,start,-5,-", "max,again,key,-3,-"])
KEY_TABLE = "accepted 60 3 1 2\ncase,start,key,again\nF,0,5,{}\nT,0,5,{}"
# the start gives p, and the call gives q where p is true only; q has weight 2
GIVEN_RULES = ["min,start,call,4,-", "min,start,door,20,pq"]
GIVEN = sheet("start call door", ["p,start", "q,call"], GIVEN_RULES)
GIVEN_FORM = sheet("start call door", ["p,start", "q,call"], ["max,call,start,-4,-", "max,door,start,-20,pq"])
BLANK = 65535


def felt_labels():
    trial("a second turn only after duress: the rule is felt, p counts from 6", only(slow(KEY), "again,p"),
          KEY_TABLE.format("-", 8), house=only(slow(KEY_FORM), "again,p"))
    for minutes, again in ((2, 8), (3, 8), (4, 9), (55, 60)):
        trial(f"the same, and p counts after {minutes} minutes: the second turn at {again}",
              only(slow(KEY, f"p,{minutes}"), "again,p"), KEY_TABLE.format("-", again),
              house=only(slow(KEY_FORM, f"p,{minutes}"), "again,p"))
    trial("the same, and p counts after 56 minutes: a minute past the horizon",
          only(slow(KEY, "p,56"), "again,p"), "accepted 60 3 1 2" + NO_TABLE,
          house=only(slow(KEY_FORM, "p,56"), "again,p"))
    trial("a second turn only without duress", only(slow(KEY), "again,!p"), KEY_TABLE.format(8, "-"),
          house=only(slow(KEY_FORM), "again,!p"))
    trial("a second turn in every case: a line with -", only(slow(KEY), "again,-"), KEY_TABLE.format(8, 8),
          house=KEY_FORM)
    trial("no lines of labels", only(slow(KEY)), KEY_TABLE.format(8, 8), house="as before")
    trial("a line with - for each event, the start too", only(slow(KEY), "again,-", "start,-", "key,-"),
          KEY_TABLE.format(8, 8), house="as before")
    bare = sheet("start key again", KEY_SIGNALS)
    trial("no rules: the second turn waits for its label only", only(slow(bare, "p,7"), "again,p"),
          "accepted 60 3 1 0\ncase,start,key,again\nF,0,0,-\nT,0,0,7", house=only(slow(bare, "p,7"), "again,p"))
    both = sheet("start a b c", ["p,start", "q,a"])
    # a waits for nothing, b for p from 1 on, c for p from 1 on and q from 3 on; p has weight 1
    table = "accepted 60 4 2 0\ncase,start,a,b,c\nFF,0,0,-,-\nTF,0,0,1,3\nFT,0,0,-,-\nTT,0,0,1,-"
    trial("a label of two letters waits for both", only(slow(both, "q,3"), "c,!qp", "b,p"), table,
          house=only(slow(both, "q,3"), "b,p", "c,p!q"))


def covered_rules():
    apart = lambda *rules: sheet("start call door vault", ["p,call"], ["min,start,call,5,-", *rules])
    two = lambda of: only(slow(of), "door,p", "vault,!p")
    table = "accepted 60 4 1 {}\ncase,start,call,door,vault\nF,0,5,-,{}\nT,0,5,{},-"
    trial("a rule between events of different cases covers nothing, converted first",
          two(apart("max,door,vault,30,-", "min,door,vault,30,-")), table.format(3, 6, 6),
          former=(two(apart("fix,door,vault,30,-")), "refused 22 line 11"), house=two(sheet("start call door vault", ["p,call"],
          ["max,call,start,-5,-", "max,door,vault,30,-", "max,vault,door,-30,-"])))
    trial("a rule covers where its event happens", two(apart("min,call,door,9,-", "max,vault,start,-20,-")),
          table.format(3, 20, 14), house=two(sheet("start call door vault", ["p,call"],
          ["max,call,start,-5,-", "max,door,call,-9,-", "max,vault,start,-20,-"])))
    trial("a rule whose label contradicts its event's covers nothing", two(apart("min,start,door,50,!p")),
          table.format(2, 6, 6), house=two(sheet("start call door vault", ["p,call"],
          ["max,call,start,-5,-", "max,door,start,-50,!p"])))
    trial("a blank is no minute: max from an event that is not there", two(apart("max,door,call,-1,-")),
          table.format(2, 6, 6), house=two(sheet("start call door vault", ["p,call"],
          ["max,call,start,-5,-", "max,door,call,-1,-"])))
    trial("a rule from an event to itself, where it happens: no table", two(apart("max,door,door,-1,-")),
          "accepted 60 4 1 2" + NO_TABLE, house=two(sheet("start call door vault", ["p,call"],
          ["max,call,start,-5,-", "max,door,door,-1,-"])))
    trial("the same labelled with what its event is not: covers nothing", two(apart("max,door,door,-1,!p")),
          table.format(2, 6, 6), house=two(sheet("start call door vault", ["p,call"],
          ["max,call,start,-5,-", "max,door,door,-1,!p"])))
    trial("the door at 5 at the latest, and its label counts from 6: no table", two(apart("max,start,door,5,-")),
          "accepted 60 4 1 2" + NO_TABLE, house=two(sheet("start call door vault", ["p,call"],
          ["max,start,door,5,-", "max,call,start,-5,-"])))
    trial("the door at 6 at the latest", two(apart("max,start,door,6,-")), table.format(2, 6, 6),
          house=two(sheet("start call door vault", ["p,call"], ["max,start,door,6,-", "max,call,start,-5,-"])))


def partly_given():
    table = "accepted 60 3 2 2\ncase,start,call,door\nFF,0,-,1\nTF,0,4,{}\nFT,0,-,1\nTT,0,4,20"
    trial("a signal given in some cases: where it is not, nothing tells its cases apart", only(slow(GIVEN), "call,p"),
          table.format(5), house=only(slow(GIVEN_FORM), "call,p"))
    trial("the same, and q counts after 10 minutes", only(slow(GIVEN, "q,10"), "call,p"), table.format(14),
          house=only(slow(GIVEN_FORM, "q,10"), "call,p"))
    # the call waits for p until 6; until then the door cannot know p either
    trial("the same, and p counts after 6 minutes", only(slow(GIVEN, "p,6"), "call,p"),
          "accepted 60 3 2 2\ncase,start,call,door\nFF,0,-,6\nTF,0,6,7\nFT,0,-,6\nTT,0,6,20",
          house=only(slow(GIVEN_FORM, "p,6"), "call,p"))
    trial("a door of one case of four", only(slow(GIVEN), "call,p", "door,qp"),
          "accepted 60 3 2 2\ncase,start,call,door\nFF,0,-,-\nTF,0,4,-\nFT,0,-,-\nTT,0,4,20",
          house=only(slow(GIVEN_FORM), "call,p", "door,pq"))
    chain = sheet("start a b c", ["p,start", "q,a", "r,b"])
    labels = ["a,p", "b,p!q", "c,p!qr"]
    # a from 1 on, b from 1 + 2 on, c from 3 + 3 on; weights 1, 2 and 4
    rows = ["FFF,0,-,-,-", "TFF,0,1,3,-", "FTF,0,-,-,-", "TTF,0,1,-,-"]
    rows += ["FFT,0,-,-,-", "TFT,0,1,3,6", "FTT,0,-,-,-", "TTT,0,1,-,-"]
    trial("each signal only after the one before", only(slow(chain, "q,2", "r,3"), *labels[::-1]),
          "\n".join(["accepted 60 4 3 0", "case,start,a,b,c", *rows]), house=only(slow(chain, "q,2", "r,3"), *labels))


def rings():
    none = lambda of, form, about: trial(about, of, "accepted 60 3 1 2" + NO_TABLE, house=form)
    none(only(slow(KEY), "key,p"), only(slow(KEY_FORM), "key,p"), "an event labelled with its own signal: no table")
    none(only(slow(KEY), "key,!p"), only(slow(KEY_FORM), "key,!p"), "the same, false: no table")
    none(only(slow(KEY), "key,p", "again,p"), only(slow(KEY_FORM), "key,p", "again,p"),
         "an event that waits for one labelled with its own signal: no table")
    pair = sheet("start a b", ["p,a", "q,b"], horizon=0)
    ring = only(slow(pair), "a,pq", "b,qp")
    trial("two events that wait for each other's signals: no table", ring, "accepted 0 3 2 0" + NO_TABLE,
          house=only(slow(pair), "a,pq", "b,pq"))
    long = sheet("start a b", ["p,a", "q,b"], horizon=10080)
    trial("the same with the longest horizon and reactions of 60", only(slow(long, "p,60", "q,60"), "b,qp", "a,pq"),
          "accepted 10080 3 2 0" + NO_TABLE, house=only(slow(long, "p,60", "q,60"), "a,pq", "b,pq"))
    trial("two events labelled with the other's signal only: 21", only(slow(pair), "a,q", "b,p"), "refused 21 line 13")
    ring = only(slow(pair), "a,p!q", "b,p!q")
    trial("two events that wait for each other's signals, one of them false: no table", ring,
          "accepted 0 3 2 0" + NO_TABLE, house=ring)


def ill_told_labels():
    def ill(text, number):
        trial(f"the line {text!a} of labels", only(slow(EXAMPLE), text), f"refused {number} line 14")
    for text in ("door", "door,p,", "", "door,p,p", ",,"):
        ill(text, 3)
    for text in ("Door,p", ",p", "door ,p", "doorsdoor,p", "1,p", "-,p"):
        ill(text, 6)
    for text in ("door,", "door,P", "door,p!", "door,!", "door,!!p", "door,--", "door,-p", "door,p-", "door,p\r"):
        ill(text, 6)
    for text in ("gate,p", "doo,p", "doors,p", "door,q", "door,pq", "door,!q", "gate,-"):
        ill(text, 8)
    for text in ("door,pp", "door,p!p", "door,!p!p"):
        ill(text, 9)
    second = lambda about, one, two, number: trial(about, only(slow(EXAMPLE), one, two), f"refused {number} line 15")
    second("an event's second line", "door,p", "door,!p", 7)
    second("an event's second line, the same", "door,p", "door,p", 7)
    second("an event's second line, the first with -", "door,-", "door,p", 7)
    second("an event's second line with -", "door,p", "door,-", 7)
    second("two lines with - for one event", "door,-", "door,-", 7)
    second("two lines with - for the start", "start,-", "start,-", 7)
    second("one line, an event's second and an ill-formed label: 6", "door,p", "door,p!", 6)
    second("one line, an event's second and an undefined letter: 7", "door,p", "door,q", 7)
    second("one line, an event's second and a letter twice: 7", "door,p", "door,pp", 7)
    second("one line, an undefined event and a letter twice: 8", "door,p", "gate,pp", 8)
    second("one line, an undefined event and an ill-formed label: 6", "door,p", "gate,!", 6)
    second("one line, an undefined letter twice: 8", "call,-", "door,qq", 8)
    trial("a label where there is no signal", only(slow(sheet("start door")), "door,p"), "refused 8 line 9")


def label_lines():
    trial("4 labels for 3 events", only(slow(EXAMPLE), count=4), "refused 5 line 13")
    trial("17 labels", only(slow(EXAMPLE), count=17), "refused 5 line 13")
    trial("-1 labels", only(slow(EXAMPLE), count=-1), "refused 5 line 13")
    trial("2^64 + 1 labels", only(slow(EXAMPLE), "door,p", count=18446744073709551617), "refused 5 line 13")
    trial("the count of labels with a leading zero", only(slow(EXAMPLE), "door,p", count="01"), "refused 4 line 13")
    trial("the count of labels -0", only(slow(EXAMPLE), count="-0"), "refused 4 line 13")
    for text in ("cases", "cases,0,", "case,0", "Cases,0", "", "labels,0", " cases,0"):
        trial(f"the heading {text!a} of labels", slow(EXAMPLE) + text + "\n", "refused 3 line 13")
    trial("the labels straight behind the rules", only(EXAMPLE, "door,p"), "refused 3 line 12")
    trial("the labels before the reactions", slow(only(EXAMPLE, "door,p"), "p,2"), "refused 3 line 12")
    trial("the labels before the rules", line(8, "cases,0\nrules,3"), "refused 3 line 8")
    most = sheet(" ".join(f"e{i}" for i in range(16)), ["p,e0"])
    labels = [f"e{i},p" for i in range(1, 16)]
    names = "\ncase," + ",".join(f"e{i}" for i in range(16))
    trial("a line for each of 16 events", only(slow(most), "e0,-", *labels),
          "accepted 60 16 1 0" + names + "\nF,0" + ",-" * 15 + "\nT,0" + ",1" * 15, house=only(slow(most), *labels))


def around_the_labels():
    trial("the heading of the labels has no line feed", only(slow(EXAMPLE))[:-1], "refused 2 line 13")
    trial("the last label has no line feed", only(slow(EXAMPLE), "door,p")[:-1], "refused 2 line 14")
    trial("a label too few, and the sheet ends", only(slow(EXAMPLE), "door,p", count=2), "refused 2 line 15")
    trial("a label too many", only(slow(EXAMPLE), "door,p", "call,-", count=1), "refused 10 line 15")
    trial("a label where 0 are announced", only(slow(EXAMPLE), "door,p", count=0), "refused 10 line 14")
    trial("the labels twice", only(only(slow(EXAMPLE), "door,p"), "door,p"), "refused 10 line 15")
    trial("one lone line feed behind the labels", only(slow(EXAMPLE), "door,p") + "\n", "refused 10 line 15")
    trial("a byte without a line feed behind the labels: never 2", only(slow(EXAMPLE)) + "x", "refused 10 line 14")
    padded = only(slow(EXAMPLE, "p,2"), "door,p")
    trial("4,096 bytes, most of them behind the labels", padded + "x" * (4096 - len(padded)), "refused 10 line 16")
    trial("4,097 bytes, most of them behind the labels", padded + "x" * (4097 - len(padded)), "refused 1 line 0")
    ends = [f"max,e{i},e{j},{100 * i + j},-" for i in range(8) for j in range(8)]
    eight = " ".join(f"e{i}" for i in range(8)) + " x"
    over = only(slow(sheet(eight, rules=ends[:-1] + ["fix,e7,x,0,-"])))
    refuse_former("65 rows would result, no lines of labels", over, "refused 17 line 0", "refused 22 line 77")
    refuse_former("65 rows would result, and a byte follows the labels: 10", over + "x", "refused 10 line 80",
                  "refused 22 line 77")


def twenty():
    of = lambda *lines, **count: only(slow(EXAMPLE), *lines, **count)
    trial("the start labelled: 20", of("start,p"), "refused 20 line 14")
    trial("the start labelled, false: 20", of("start,!p"), "refused 20 line 14")
    trial("20 is given with the last line", of("start,p", "door,-", "call,-"), "refused 20 line 16")
    trial("the start labelled in the last line", of("call,-", "start,p"), "refused 20 line 15")
    trial("20 comes behind a fault of a later line", of("start,p", "door,q"), "refused 8 line 15")
    trial("20 comes behind a missing line", of("start,p", count=2), "refused 2 line 15")
    trial("20 comes before bytes behind the section", of("start,p") + "x", "refused 20 line 14")
    pair = lambda *lines: only(slow(PAIR), *lines)
    trial("20 and 21, by an event: 20", pair("start,q", "call,p", "door,q"), "refused 20 line 17")
    trial("20 and 21, by a rule: 20", pair("call,p", "start,p"), "refused 20 line 16")
    trial("20 and 21, by the start's own label: 20", pair("start,q", "call,p"), "refused 20 line 16")


def twenty_one():
    bare = sheet("start call door", ["p,start", "q,call"])
    of = lambda *lines: only(slow(bare), *lines)
    trial("21 by an event: q is given where p is true", of("call,p", "door,q"), "refused 21 line 13")
    trial("21 by an event whose line comes first", of("door,q", "call,p"), "refused 21 line 13")
    trial("21 is given with the last line", of("door,q", "call,p", "start,-"), "refused 21 line 14")
    trial("21: the letter is there with the other sign", of("call,p", "door,q!p"), "refused 21 line 13")
    trial("21: the false letter is used too", of("call,p", "door,!q"), "refused 21 line 13")
    rows = lambda *rows: "\n".join(["accepted 60 3 2 0", "case,start,call,door", *rows])
    trial("the whole label of the giver: accepted", of("call,p", "door,!qp"),
          rows("FF,0,-,-", "TF,0,1,2", "FT,0,-,-", "TT,0,1,-"), house=of("call,p", "door,p!q"))
    rule = lambda label, *lines: only(slow(sheet("start call door", ["p,start", "q,call"],
                                                 [f"min,start,door,9,{label}"])), *lines)
    trial("21 by a rule", rule("q", "call,p"), "refused 21 line 13")
    trial("21 by a rule with the other sign", rule("!pq", "call,p"), "refused 21 line 13")
    trial("21 by a rule, and by no label of an event", rule("!q", "door,p", "call,p"), "refused 21 line 14")
    table = "accepted 60 3 2 1\ncase,start,call,door\nFF,0,-,1\nTF,0,1,2\nFT,0,-,1\nTT,0,1,9"
    form = only(slow(sheet("start call door", ["p,start", "q,call"], ["max,door,start,-9,pq"])), "call,p")
    trial("a rule with the whole label: accepted", rule("qp", "call,p"), table, house=form)
    chain = lambda label: only(slow(sheet("start a b c", ["p,start", "q,a", "r,b"])), "a,p", "b,pq", "c," + label)
    for label in ("r", "rq", "rp", "!r!pq"):
        trial(f"21 of a chain of three signals: the label {label}", chain(label), "refused 21 line 16")
    trial("21 comes behind a fault of a later line", of("call,p", "door,q", "gate,p"), "refused 8 line 14")
    trial("21 comes before bytes behind the section", of("call,p", "door,q") + "\n", "refused 21 line 13")


def judged_labels():
    of, form = [only(slow(text, "p,2"), "again,p") for text in (KEY, KEY_FORM)]

    def one(about, verdict, table, house="as before"):
        shown = ["-" if minute == BLANK else str(minute) for minute in table]
        rows = ["case,start,key,again", ",".join(["F", *shown[:3]]), ",".join(["T", *shown[3:]])]
        trial("judged: " + about, of, "\n".join(["accepted 60 3 1 2", "judged " + verdict, *rows]), table, house=house)

    one("a second turn after duress", "pass", [0, 5, BLANK, 0, 5, 8], form)
    one("a later second turn", "pass", [0, 5, BLANK, 0, 5, 60])
    one("wrongly filled", "late 0 2", [0, 5, 8, 0, 5, 8])
    one("wrongly filled with 0", "late 0 2", [0, 5, 0, 0, 5, 8])
    one("wrongly filled with 65534", "late 0 2", [0, 5, 65534, 0, 5, 8])
    one("wrongly blank", "late 1 2", [0, 5, BLANK, 0, 5, BLANK])
    one("filled and blank exchanged", "late 0 2", [0, 5, 8, 0, 5, BLANK])
    one("sooner than its label allows", "late 1 2", [0, 5, BLANK, 0, 5, 6])
    one("just in time for its label, and a rule broken", "rule 1 1", [0, 5, BLANK, 0, 5, 7])
    one("a giver wrongly blank", "late 0 1", [0, BLANK, BLANK, 0, 5, 8])
    one("a giver wrongly blank where its signal is waited for", "late 1 1", [0, 5, BLANK, 0, BLANK, 8])
    one("sooner than its label allows comes before a rule broken in case 0", "late 1 2", [0, 4, BLANK, 0, 4, 5])
    one("blanks throughout", "late 0 0", [BLANK] * 6)
    first = only(slow(sheet("start again key", ["p,key"])), "again,p")
    late = lambda about, verdict, table, house="as before": trial(
        "judged: " + about, first, f"accepted 60 3 1 0\njudged {verdict}\n...", table, house=house)
    late("a waiting cell before the giver that is blank", "late 1 1", [0, BLANK, 5, 0, 8, BLANK], first)
    late("a waiting cell before the giver that is late", "late 1 1", [0, BLANK, 5, 0, 60, 61])
    late("the giver late in a case where nothing waits for it", "late 0 2", [0, BLANK, 61, 0, 8, 5])
    two = only(slow(GIVEN), "call,p")
    both = lambda about, verdict, doors, house="as before": trial(
        "judged: " + about, two, f"accepted 60 3 2 2\njudged {verdict}\n...",
        [0, BLANK, doors[0], 0, 4, doors[1], 0, BLANK, doors[2], 0, 4, doors[3]], house=house)
    both("a signal given in some cases", "pass", [1, 5, 1, 20], only(slow(GIVEN_FORM), "call,p"))
    both("a signal that is not given tells nothing apart", "unheard 0 2 2", [1, 5, 2, 20])
    both("nor at any later minute", "unheard 0 2 2", [50, 5, 60, 20])
    both("where it is given, it tells cases apart", "pass", [1, 6, 1, 20])
    both("a minute too soon for it", "unheard 1 3 2", [1, 4, 1, 20])
    door = only(slow(sheet("start call door", ["p,start"])), "door,p")
    trial("judged: events of one case only are not compared", door, "accepted 60 3 1 0\njudged pass\n...",
          [0, 0, BLANK, 0, 0, 1], house=door)
    trial("judged: others still are", door, "accepted 60 3 1 0\njudged unheard 0 1 1\n...",
          [0, 0, BLANK, 0, 1, 1], house="as before")


def asked_labels():
    of = lambda minutes: only(slow(KEY, f"p,{minutes}"), "again,p")
    form = lambda minutes: only(slow(KEY_FORM, f"p,{minutes}"), "again,p")
    trial("asked: a blank is never due", only(slow(KEY), "again,p"), KEY_TABLE.format("-", 8),
          house=only(slow(KEY_FORM), "again,p"),
          asked=["0 1 r16.0 r16.0", "6 r16.0 0 0", "60 r16.0 0 0", "65535 r16.0 0 0"])
    trial("asked at 6: p counts after 2, not yet", of(2), KEY_TABLE.format("-", 8), house=form(2),
          asked=["6 0 r16.0 r16.0"])
    trial("asked at 60: the second turn is due where p was heard", of(55), KEY_TABLE.format("-", 60), house=form(55),
          asked=["60 r16.0 4 0", "65535 r16.0 0 0"])
    # q is given where p is true: lists are none, p, !p, then q and p true, false, and q true and p false
    trial("asked: a signal that is not given is never heard", only(slow(GIVEN), "call,p"),
          "accepted 60 3 2 2\ncase,start,call,door\nFF,0,-,1\nTF,0,4,5\nFT,0,-,1\nTT,0,4,20",
          house=only(slow(GIVEN_FORM), "call,p"),
          asked=["1 r16.0 0 4 r16.0 r16.0 r16.0", "6 r16.0 r16.0 0 0 r16.0 r16.0", "65535 r16.0 r16.0 0 0 r16.0 r16.0"])


def reread_labels():
    of = {"of": only(slow(KEY), "again,p"), "accepted": "60 3 1 2"}
    listing = lambda false, true: f"case,start,key,again\nF,{false}\nT,{true}\n"
    form = only(slow(KEY_FORM), "again,p")
    reread("a second turn after duress", listing("0,5,-", "0,5,8"), 6, "pass", house=form, **of)
    reread("a blank wrongly filled", listing("0,5,8", "0,5,8"), 6, "late 0 2", **of)
    reread("65534, the last minute that is printed in digits", listing("0,5,65534", "0,5,8"), 6, "late 0 2", **of)
    reread("a minute wrongly blank", listing("0,5,-", "0,5,-"), 6, "late 1 2", **of)
    reread("a blank start", listing("-,5,-", "0,5,8"), 6, "late 0 0", **of)
    for text in ("65535", "--", " -", "- ", "-0", "", "+", "065535", "-65535"):
        misread(f"a blank written {text!a}", listing("0,5," + text, "0,5,8"), 19, 2, **of)
    misread("65535 in the last row", listing("0,5,-", "0,65535,8"), 19, 3, **of)
    misread("a blank and its comma left out", listing("0,5", "0,5,8"), 18, 2, **of)
    marked = "case,start,key,again\nF,0,5,65535\nt,0,5,8\n"
    misread("65535 for a blank, and a mark in the next row: 18", marked, 18, 3, **of)
    misread("a CR behind a blank", listing("0,5,-\r", "0,5,8"), 19, 2, **of)
    alone = sheet("start")
    reread("start alone, blank", "case,start\n-,-\n", 1, "late 0 0", of=alone, accepted="60 1 0 0", house=alone)


def listed_labels():
    events, signals = "start call door vault", ["q,call", "p,start"]
    typed, form = sheet(events, signals, ["min,start,call,2,-"]), sheet(events, signals, ["max,call,start,-2,-"])
    # q has weight 1; p counts from 1 on and q from 3 on, the call is at 2 where p is true
    table = "accepted 60 4 2 1\ncase,start,call,door,vault\nFF,0,-,-,0\nTF,0,-,-,0\nFT,0,2,-,0\nTT,0,2,3,0"
    one = lambda about, text, house="as before": trial("labelled procedure, " + about, text, table, house=house)
    one("lines in event order, letters in signal order", only(slow(typed), "door,pq", "call,p"),
        only(slow(form), "call,p", "door,qp"))
    one("in event order already", only(slow(typed), "call,p", "door,pq"))
    one("letters in signal order already", only(slow(typed), "call,p", "door,qp"))
    one("a line with -", only(slow(typed), "vault,-", "door,qp", "start,-", "call,p"))
    one("lines of reactions of 1", only(slow(typed, "p,1", "q,1"), "door,qp", "call,p"))
    one("its rule the other way round", only(slow(form), "door,qp", "call,p"))
    one("as its house form", only(slow(form), "call,p", "door,qp"))
    table = table.replace("TT,0,2,3", "TT,0,2,4")
    one("a reaction of 2: no reactions,0", only(slow(typed, "q,2"), "door,pq", "call,p"),
        only(slow(form, "q,2"), "call,p", "door,qp"))
    table = table.replace("FT,0,2,-", "FT,0,2,4").replace("TT,0,2,4", "TT,0,2,-")
    one("another sign: another form", only(slow(typed, "q,2"), "door,p!q", "call,p"),
        only(slow(form, "q,2"), "call,p", "door,!qp"))
    table = table.replace("FT,0,2,4", "FT,0,2,1").replace("TT,0,2,-", "TT,0,2,1")
    one("a letter less: another form", only(slow(typed, "q,2"), "door,p", "call,p"),
        only(slow(form, "q,2"), "call,p", "door,p"))
    table = table.replace("FF,0,-,-", "FF,0,-,0").replace("TF,0,-,-", "TF,0,-,0").replace(",2,1", ",2,0")
    one("no label: another form", only(slow(typed, "q,2"), "door,-", "call,p"), only(slow(form, "q,2"), "call,p"))
    names = [f"event{i:03}" for i in range(16)]
    signals = [f"{letter},event{i:03}" for i, letter in enumerate("wxyz")]
    rows = [f"max,event{i:03},event{j:03},-10080,!w!x!y!z" for i in range(12, 16) for j in range(16)]
    lines = [f"{letter},{minutes}" for letter, minutes in zip("wxyz", (60, 10, 59, 11))]
    labels = [f"{name},!w!x!y!z" for name in names[1:]]
    form = only(slow(sheet(" ".join(names), signals, rows, horizon=10080), *lines), *labels)
    assert len(form) == 2974
    trial("the longest form there is, 2,974 bytes",
          only(slow(sheet(" ".join(names), signals, rows[::-1], horizon=10080), *lines[::-1]), *labels[::-1]),
          "accepted 10080 16 4 64" + NO_TABLE, house=form)


def retired():
    """`fix` is no kind any more (02, point 7); the rules of the example stand on lines 9 to 11."""
    refused_fixes()
    fixes_and_other_faults()
    no_fixes()


def refused_fixes():
    trial("22 on the first row", line(9, "fix,start,call,5,-"), "refused 22 line 9")
    trial("22 on a row between others", line(10, "fix,call,door,15,p"), "refused 22 line 10")
    trial("22 on the last row", line(11, "fix,start,door,30,-"), "refused 22 line 11")
    trial("22 on the last of 64 rows", sheet("start door", rules=["max,start,door,9,-"] * 63 + ["fix,start,door,9,-"]),
          "refused 22 line 70")
    trial("22 on the only row, from an event to itself", sheet("start", rules=["fix,start,start,0,-"]),
          "refused 22 line 6")
    trial("22 on two rows: the first", line(10, "fix,call,door,15,p", of=line(11, "fix,start,door,30,-")),
          "refused 22 line 10")
    trial("22 where there are reactions and labels", only(slow(line(11, "fix,start,door,30,-"), "p,2"), "door,p"),
          "refused 22 line 11")
    late = line(11, "fix,start,door,20,-")
    refused = "refused 22 line 11\njudged refused 22 line 11\nlisted refused 22 line 11"
    trial("22, and a table", late, refused, [0, 5, 20, 0, 5, 20])
    trial("22, and an odd table of another length", late, refused, [0, 5], b"\0")
    own = lambda about, listing: trial("22, and " + about, late, "refused 22 line 11\nreturned refused 22 line 11",
                                       listing=listing)
    own("the listing of its former table", "case,start,call,door\nF,0,5,20\nT,0,5,20\n")
    own("a misread listing", line(2, "F,0,05,6", PRINTED))
    own("4,097 bytes of listing", "x" * 4097)


def fixes_and_other_faults():
    """22 comes directly behind 3, so before 4 to 9; of two lines the first decides."""
    for about, text in [("an ill-formed number", "fix,start,door,05,-"), ("the number -0", "fix,start,door,-0,-"),
                        ("no number", "fix,start,door,,-"), ("a number beyond its range", "fix,start,door,10081,-"),
                        ("an ill-formed event", "fix,start,Door,5,-"), ("an empty event", "fix,,door,5,-"),
                        ("an ill-formed label", "fix,start,door,5,p!"), ("no label", "fix,start,door,5,"),
                        ("an undefined event", "fix,start,gate,5,-"), ("an undefined letter", "fix,start,door,5,q"),
                        ("a letter twice", "fix,start,door,5,p!p"), ("nothing in order", "fix,,,,")]:
        trial(f"one line, a fix and {about}: 22", line(10, text), "refused 22 line 10")
    for text in ("fix", "fix,", "fix,start,door,20", "fix,start,door,20,-,", "fix,start,door,5,-,p", "fix,fix,fix,fix"):
        trial(f"the row {text!a}: another count of fields", line(10, text), "refused 3 line 10")
    for text in ("Fix", "FIX", "fixx", "fi", " fix", "fix ", "fix\r", "fix\0", "\xe6ix", ""):
        trial(f"the kind {text!a}", line(10, text + ",start,door,20,-"), "refused 3 line 10")
    trial("a fix without a line feed: 2", line(11, "fix,start,door,20,-")[:-1], "refused 2 line 11")
    trial("a fix, and a row missing behind it", line(8, "rules,4", of=line(11, "fix,start,door,20,-")),
          "refused 22 line 11")
    trial("two lines, a letter twice and then a fix", line(9, "min,start,call,5,pp", of=line(10, "fix,call,door,5,-")),
          "refused 9 line 9")
    trial("two lines, a fix and then four fields", line(9, "fix,start,call,5,-", of=line(10, "min,call,door,15")),
          "refused 22 line 9")
    trial("a fix, and 65 rules are announced", line(8, "rules,65", of=line(9, "fix,start,call,5,-")),
          "refused 5 line 8")
    trial("a fix, and a name is defined twice", line(5, "start", of=line(9, "fix,start,call,5,-")), "refused 7 line 5")
    behind = line(11, "fix,start,door,30,-")
    trial("a fix, and a byte follows the rules", behind + "x", "refused 22 line 11")
    trial("a fix, and a reaction of 61", slow(behind, "p,61"), "refused 22 line 11")
    trial("a fix, and the start is labelled", only(slow(behind), "start,p"), "refused 22 line 11")
    trial("a fix, and a byte follows the labels", only(slow(behind)) + "x", "refused 22 line 11")
    trial("4,097 bytes, a fix among them", behind + "x" * (4097 - len(behind)), "refused 1 line 0")
    trial("a fix too many: not the heading of the reactions", EXAMPLE + "fix,start,door,30,-\n", "refused 3 line 12")


def no_fixes():
    """Words decide nothing: a row has five fields."""
    events, signals = "rules fix max min", ["f,fix"]
    rules = ["min,rules,fix,5,-", "max,fix,max,0,f", "min,fix,min,2,!f"]
    rows = ["max,fix,rules,-5,-", "max,fix,max,0,f", "max,min,fix,-2,!f"]
    table = "accepted 60 4 1 3\ncase,rules,fix,max,min\nF,0,5,{0},{1}\nT,0,5,{0},{2}"
    trial("events named rules, fix, max and min", sheet(events, signals, rules), table.format(0, 7, 6),
          house=sheet(events, signals, rows))
    of = lambda rules: only(slow(sheet(events, signals, rules)), "fix,-", "max,f", "rules,-")
    form = only(slow(sheet(events, signals, rows)), "max,f")
    # max comes where f is true, not before 6, and then not behind fix at 5
    trial("the same, and lines `fix,-` and `max,f`", of(rules), "accepted 60 4 1 3" + NO_TABLE, house=form)
    trial("the same, and max may come a minute later", of(rules[:1] + ["max,fix,max,1,f"] + rules[2:]),
          "accepted 60 4 1 3\ncase,rules,fix,max,min\nF,0,5,-,7\nT,0,5,6,6",
          house=only(slow(sheet(events, signals, rows[:1] + ["max,fix,max,1,f"] + rows[2:])), "max,f"))


def conversions():
    """The converter (02, point 7)."""
    converted_rows()
    converted_counts()
    converted_ends()
    converted_words()
    tables_of_converted()
    refused_by_converter()


def convert(about, former, at, of, answer, **rest):
    """A sheet with its first `fix` at a line, or with none, and what it is converted to."""
    read = answer.split("\n")[0] if at is None else f"refused 22 line {at}"
    trial("converted: " + about, of, answer, former=(former, read), **rest)


# the rules of the example on lines 9 to 11, with some of them as `fix`, and what stands for them
FIRST, SECOND, THIRD = "start,call,5,-", "call,door,15,p", "start,door,30,-"
DOOR = "\ncase,start,call,door\nF,0,5,{}\nT,0,5,{}"


def three(*rules):
    return sheet("start call door", ["p,call"], rules)


def converted_rows():
    kept = ["min," + FIRST, "min," + SECOND, "max," + THIRD]
    convert("a sheet without a fix", EXAMPLE, None, EXAMPLE, LISTING)
    convert("the first row", line(9, "fix," + FIRST), 9, three(*both(FIRST), *kept[1:]),
            "accepted 60 3 1 4" + DOOR.format(6, 20))
    convert("a row between others", line(10, "fix," + SECOND), 10, three(kept[0], *both(SECOND), kept[2]),
            "accepted 60 3 1 4" + DOOR.format(6, 20))
    convert("the last row", line(11, "fix," + THIRD), 11, three(*kept[:2], *both(THIRD)),
            "accepted 60 3 1 4" + DOOR.format(30, 30))
    convert("two rows that stand apart", line(9, "fix," + FIRST, of=line(11, "fix," + THIRD)), 9,
            three(*both(FIRST), kept[1], *both(THIRD)), "accepted 60 3 1 5" + DOOR.format(30, 30))
    # the door at 20 where p is true, and at 30
    convert("all rows", three("fix," + FIRST, "fix," + SECOND, "fix," + THIRD), 9, three(*both(FIRST, SECOND, THIRD)),
            "accepted 60 3 1 6" + NO_TABLE)
    convert("one fix twice", three("fix," + FIRST, "fix," + FIRST), 9, three(*both(FIRST, FIRST)),
            "accepted 60 3 1 4" + DOOR.format(0, 0))
    convert("a fix behind its own max and min", three(*both(FIRST), "fix," + FIRST), 11, three(*both(FIRST, FIRST)),
            "accepted 60 3 1 4" + DOOR.format(0, 0))
    convert("a fix that leaves no table", line(11, "fix,start,door,19,-"), 11,
            three(*kept[:2], *both("start,door,19,-")), "accepted 60 3 1 4" + NO_TABLE)
    of = lambda rules: sheet("start call door", ["q,call", "p,start"], rules)
    # the door at 12 where p is false and q true; the call is at 5, and q has weight 1
    convert("letters in another order than the signals stay", of(["min,start,call,5,-", "fix,call,door,7,!pq"]), 11,
            of(["min,start,call,5,-", "max,call,door,7,!pq", "min,call,door,7,!pq"]),
            "accepted 60 3 2 3\ncase,start,call,door\nFF,0,5,6\nTF,0,5,12\nFT,0,5,1\nTT,0,5,1")
    alone = sheet("start", rules=["fix,start,start,0,-"])
    convert("from an event to itself", alone, 6, sheet("start", rules=both("start,start,0,-")),
            "accepted 60 1 0 2\ncase,start\n-,0")


def converted_counts():
    """A count of one digit stays one up to 9."""
    of = lambda *rules: sheet("start door", rules=rules)
    row = "start,door,7,-"
    table = "\ncase,start,door\n-,0,7"
    for maxes, fixes in ((8, 0), (7, 1), (8, 1), (9, 0), (9, 1), (0, 5), (0, 9), (1, 9), (62, 1), (2, 31)):
        rows = maxes + 2 * fixes
        former = of(*["max," + row] * maxes, *["fix," + row] * fixes)
        least = table if fixes else "\ncase,start,door\n-,0,0"
        convert(f"{maxes} rows and {fixes} of fix: {rows}", former, 7 + maxes if fixes else None,
                of(*["max," + row] * maxes, *both(row) * fixes), f"accepted 60 2 0 {rows}{least}")
    full = of(*["max," + row] * 64)
    convert("64 rows and none of fix: 64", full, None, full, "accepted 60 2 0 64\ncase,start,door\n-,0,0")
    empty = of()
    convert("no rules", empty, None, empty, "accepted 60 2 0 0\ncase,start,door\n-,0,0")
    for maxes, fixes in ((63, 1), (1, 32), (0, 33), (0, 64)):
        refuse_former(f"converted: {maxes} rows and {fixes} of fix: {maxes + 2 * fixes}",
                      of(*["max," + row] * maxes, *["fix," + row] * fixes), "refused 17 line 0",
                      f"refused 22 line {7 + maxes}")


def converted_ends():
    """What stands behind the rules stays, byte for byte."""
    former, of = line(9, "fix," + FIRST), three(*both(FIRST), "min," + SECOND, "max," + THIRD)
    for about, ends, door in [("no lines of reactions", slow, 6),
                              ("a reaction of 1", lambda text: slow(text, "p,1"), 6),
                              ("a reaction of 3", lambda text: slow(text, "p,3"), 8),
                              ("no lines of labels", lambda text: only(slow(text)), 6),
                              ("lines with -", lambda text: only(slow(text, "p,1"), "door,-", "start,-"), 6)]:
        convert(about, ends(former), 9, ends(of), "accepted 60 3 1 4" + DOOR.format(door, 20))
    some = lambda text: only(slow(text, "p,3"), "call,-", "door,p")
    convert("a door that only some cases have", some(former), 9, some(of), "accepted 60 3 1 4" + DOOR.format("-", 20))


def converted_words():
    events, signals, table = "rules fix max", ["f,fix"], "accepted 60 3 1 {}\ncase,rules,fix,max\nF,0,5,{}\nT,0,5,{}"
    of = lambda rules, *lines: only(slow(sheet(events, signals, rules)), *lines)
    lines = ["fix,-", "max,f", "rules,-"]
    plain = of(["min,rules,fix,5,-"], *lines)
    convert("lines `fix,-` and `max,f`, and no fix", plain, None, plain, table.format(1, "-", 6))
    convert("the same, and a fix between fix and max", of(["min,rules,fix,5,-", "fix,fix,max,4,f"], *lines), 10,
            of(["min,rules,fix,5,-", "max,fix,max,4,f", "min,fix,max,4,f"], *lines), table.format(3, "-", 9))
    convert("a fix from fix to fix", sheet(events, signals, ["fix,fix,fix,0,-"]), 9,
            sheet(events, signals, both("fix,fix,0,-")), "accepted 60 3 1 2\ncase,rules,fix,max\nF,0,0,0\nT,0,0,0")
    refuse_former("converted: the kind fixx", sheet(events, signals, ["fixx,fix,fix,0,-"]), "refused 3 line 9",
                  "refused 3 line 9")


def tables_of_converted():
    """The rules of a verdict have their places in what the sheet is converted to."""
    former, of = line(9, "fix," + FIRST), three(*both(FIRST), "min," + SECOND, "max," + THIRD)
    one = lambda about, verdict, table: convert(about, former, 9, of, f"accepted 60 3 1 4\njudged {verdict}\n...",
                                                table=table)
    one("judged, pass", "pass", [0, 5, 6, 0, 5, 20])
    one("judged, the max of a fix broken", "rule 0 0", [0, 6, 7, 0, 6, 21])
    one("judged, the min of a fix broken", "rule 0 1", [0, 4, 6, 0, 4, 20])
    one("judged, a row behind a fix broken", "rule 1 2", [0, 5, 6, 0, 5, 19])
    text = "case,start,call,door\nF,0,5,6\nT,0,5,31\n"
    convert("a listing read back", former, 9, of,
            f"accepted 60 3 1 4\nreturned 6 short r12.0\njudged rule 1 3\n{text[:-1]}", listing=text)


def refused_by_converter():
    """As by the former rules, with the line that the sheet has as it is typed; never 22."""
    one = lambda about, former, answer, at: refuse_former("converted: " + about, former, answer,
                                                          f"refused 22 line {at}")
    fix = lambda number, text: line(number, text, of=line(9, "fix," + FIRST))
    one("the last rule has no line feed", fix(11, "max," + THIRD)[:-1], "refused 2 line 11", 9)
    one("a rule is missing", line(8, "rules,4", of=line(9, "fix," + FIRST)), "refused 2 line 12", 9)
    one("a rule without a label", fix(10, "min,call,door,15"), "refused 3 line 10", 9)
    one("another kind", fix(11, "fox," + THIRD), "refused 3 line 11", 9)
    one("an ill-formed limit of a fix", line(9, "fix,start,call,05,-"), "refused 4 line 9", 9)
    one("a limit of a fix beyond its range", line(11, "fix,start,door,10081,-"), "refused 5 line 11", 11)
    one("an ill-formed label of a fix", line(10, "fix,call,door,15,p!"), "refused 6 line 10", 10)
    one("an undefined event of a fix", line(10, "fix,call,gate,15,p"), "refused 8 line 10", 10)
    one("an undefined letter behind a fix", fix(11, "max,start,door,30,q"), "refused 8 line 11", 9)
    one("a letter twice in a fix", line(10, "fix,call,door,15,p!p"), "refused 9 line 10", 10)
    one("the second fix at fault", fix(10, "fix,call,door,-0,p"), "refused 4 line 10", 9)
    one("a byte behind the rules", line(9, "fix," + FIRST) + "x", "refused 2 line 12", 9)
    one("a lone line feed behind the rules", line(9, "fix," + FIRST) + "\n", "refused 3 line 12", 9)
    one("a letter's second reaction", slow(line(9, "fix," + FIRST), "p,2", "p,2"), "refused 7 line 14", 9)
    one("a reaction of 61", slow(line(9, "fix," + FIRST), "p,61"), "refused 5 line 13", 9)
    one("bytes behind the labels", only(slow(line(9, "fix," + FIRST)), "door,p") + "\n", "refused 10 line 15", 9)
    one("the start labelled", only(slow(line(9, "fix," + FIRST)), "start,p"), "refused 20 line 14", 9)
    pair = sheet("start call door", ["p,start", "q,call"], ["fix,start,door,9,q"])
    one("a fix whose label lacks something", only(slow(pair), "call,p"), "refused 21 line 13", 10)
    over = [f"fix,start,door,{limit},-" for limit in range(33)]
    one("17 behind 9", sheet("start door", ["p,start"], over + ["max,start,door,5,p!p"]), "refused 9 line 41", 8)
    one("17 behind 10", only(slow(sheet("start door", rules=over))) + "x", "refused 10 line 42", 7)
    same = lambda about, former, answer: refuse_former("converted: " + about, former, answer, answer)
    same("an empty sheet", "", "refused 2 line 1")
    same("a fix with four fields", line(10, "fix,call,door,15"), "refused 3 line 10")
    same("a fix with six fields", line(10, "fix,call,door,15,p,-"), "refused 3 line 10")
    same("a fix without its line feed", line(11, "fix," + THIRD)[:-1], "refused 2 line 11")
    same("a name twice before a fix", line(5, "call", of=line(9, "fix," + FIRST)), "refused 7 line 5")
    same("65 rules", line(8, "rules,65", of=line(9, "fix," + FIRST)), "refused 5 line 8")
    same("a fix too many", EXAMPLE + "fix," + THIRD + "\n", "refused 3 line 12")
    long = line(9, "fix," + FIRST)
    one("4,096 bytes", long + "x" * (4096 - len(long)), "refused 2 line 12", 9)
    same("4,097 bytes", long + "x" * (4097 - len(long)), "refused 1 line 0")


def write():
    data = HOME / "data"
    data.mkdir(parents=True, exist_ok=True)
    for old in data.glob("[0-9]*"):
        old.unlink()
    for number, (_, text, _, table, listing, _, _, former) in enumerate(TRIALS, 1):
        kind, text = ("fix", former[0]) if former else ("csv", text)
        for kind, contents in ((kind, text.encode("latin-1")), ("tab", table), ("lst", listing)):
            if contents is not None:
                (data / f"{number:03}.{kind}").write_bytes(contents)
    (data / "titles.txt").write_text("".join(about + "\n" for about, *_ in TRIALS))
    tables = sum(table is not None for _, _, _, table, *_ in TRIALS)
    listings = sum(listing is not None for _, _, _, _, listing, *_ in TRIALS)
    formers = sum(former is not None for *_, former in TRIALS)
    print(f"{len(TRIALS)} sheets, {formers} of them to be converted first, {tables} tables, {listings} listings")


def titled():
    """A trial's first line begins with its number, and its title then has a line of its own with the number."""
    titles = (f"{number:03} {about}" for number, (about, *_) in enumerate(TRIALS, 1))
    title = next(titles)
    for text in sys.stdin.read().splitlines():
        if title and text[:4] == title[:4]:
            print(title)
            title, text = next(titles, None), text[4:]
        print(text)


def answers():
    """The output cut into one text per trial, without its number and title."""
    found = []
    for text in (HOME / "stdout").read_text().splitlines():
        if text.startswith("small "):
            break
        if len(found) < len(TRIALS) and text == f"{len(found) + 1:03} {TRIALS[len(found)][0]}":
            found.append([])
        else:
            found[-1].append(text)
    return ["\n".join(lines) for lines in found]


def without_house(text):
    """An answer without the lines of the house form, of `played` and of `asked`; and the lines of the house form."""
    first, *rest = text.split("\n")
    end = 1 if rest[0].startswith("house refused") else 1 + next(place for place, text in enumerate(rest) if text.startswith("again "))
    house, kept, played = rest[:end], [first], False
    for text in rest[end:]:
        played = text.startswith("played ") or played and not text.startswith("asked ")
        if not played and not text.startswith("asked "):
            kept.append(text)
    return "\n".join(kept), "\n".join(house)


def house_lines(house):
    """What is printed for a house form, its refusal or `as before`."""
    if house.startswith("refused"):
        return "house " + house.split("\n")[0]
    return ("house as before\n" if house == "as before" else "house\n" + house) + "again same short r12.0"


def with_returned(answer, table, listing):
    """What is written by hand, and `returned same` behind the listing of a solved table."""
    solved = table is None and listing is None and answer.startswith("accepted") and not answer.endswith(NO_TABLE)
    return answer + "\nreturned same" if solved else answer


def converted(sheet, answer, former):
    """What is printed of a sheet that is converted first, up to what is printed of what it is converted to."""
    if sheet is None:
        return f"{former[1]}\nconverted {answer}"
    return f"{former[1]}\nconverted\n{sheet}again same short r12.0\n"


def check():
    found = answers()
    wrong = abs(len(found) - len(TRIALS))
    for number, (of_trial, text) in enumerate(zip(TRIALS, found), 1):
        about, of, answer, table, listing, house, asked, former = of_trial
        first = converted(of, answer, former) if former else ""
        if not text.startswith(first) or of is None and text != first:
            wrong += 1
            print(f"{number:03} {about}\nby hand:\n{first}\nprinted:\n{text}\n")
            continue
        if of is None:
            continue
        text = text[len(first) :]
        answer = with_returned(answer, table, listing)
        for begins in asked:
            if not any(printed.startswith(f"asked {begins} ") for printed in text.split("\n")):
                wrong += 1
                print(f"{number:03} {about}\nby hand:\nasked {begins}\n")
        text, lines = without_house(text)
        right = text.startswith(answer[:-3]) if answer.endswith("...") else text == answer
        if not right:
            wrong += 1
            print(f"{number:03} {about}\nby hand:\n{answer}\nprinted:\n{text}\n")
        if house is not None and lines != house_lines(house):
            wrong += 1
            print(f"{number:03} {about}\nby hand:\n{house_lines(house)}\nprinted:\n{lines}\n")
    formed = sum(house is not None for *_, house, _, _ in TRIALS)
    print(f"{len(TRIALS)} trials, {formed} of them with the house form or its refusal, {wrong} differ from what is written by hand")
    sys.exit(1 if wrong else 0)


document_01()
lengths()
missing_lines()
wrong_fields()
numbers()
ranges()
names()
labels()
odd_bytes()
definitions()
endings()
two_faults()
full_sheets()
tables()
house_forms()
reactions()
returned()
labelled()
retired()
conversions()

if sys.argv[1:] == ["check"]:
    check()
elif sys.argv[1:] == ["titled"]:
    titled()
else:
    write()
