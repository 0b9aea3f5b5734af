#!/usr/bin/env python3
"""Writes crates/trials/data/small.csv: small sheets one behind the other, each followed by a line `=`.

    make_small.py           writes the file
    make_small.py expected  prints the lines that `trials` is to print for it, behind those of the numbered sheets

Which sheets have a good table is found here by trying every table, from document 01's three points, with the reactions
of document 02, point 3, and the events' labels of its point 6, and nothing else. The same seed gives the same file:
only random() is used, whose values do not change between versions.
"""

import itertools
import pathlib
import random
import sys

FILE = pathlib.Path(__file__).resolve().parent.parent.parent / "crates" / "trials" / "data" / "small.csv"
SHEETS = 300
# The search that `trials` compares with makes at most 70,000 tables; most sheets have far fewer, for the sake of the running time.
MOST_TABLES = 70_000
MANY_TABLES = 5_000
LARGE_SHEETS = 12
BLANK = 65_535

rng = random.Random(20_261_115)


def pick(least, most):
    return least + int(rng.random() * (most - least + 1))


def one_of(items):
    return items[pick(0, len(items) - 1)]


def distinct(count, draw):
    found = []
    while len(found) < count:
        item = draw()
        if item not in found:
            found.append(item)
    return found


def name():
    return one_of("abcdefghijklmnopqrstuvwxyz") + "".join(one_of("abcxyz0189") for _ in range(pick(0, 7)))


def label(signals):
    """Signals with the truth that is asked of each, in any order; none at all is every case."""
    order = distinct(pick(0, signals), lambda: pick(0, signals - 1))
    return [(signal, rng.random() < 0.5) for signal in order]


def rule(events, signals):
    """Half of the rules ask for a wait from the start or one event after another, so that tables are not all 0."""
    if rng.random() < 0.5:
        return one_of(["min", "max"]), pick(0, events - 1), pick(0, events - 1), pick(-3, 4), label(signals)
    return "min", one_of([0, pick(0, events - 1)]), pick(0, events - 1), pick(1, 3), label(signals)


def completed(letters, signals, labels):
    """A label of these letters, with what the labels of the events ask whose signals it uses (02, refusal 21); a letter
    that would contradict those before it is left out."""
    whole = []
    for letter in letters:
        more, needed = list(whole), [letter]
        while needed:
            signal, value = needed.pop()
            if (signal, value) not in more:
                more.append((signal, value))
                needed += labels[signals[signal]]
        if len({signal for signal, _ in more}) == len(more):
            whole = more
    return whole


def draw_labels(events, signals):
    """Labels of some events but the start. A giver's has letters of signals before its own; one draw in ten may have
    its own, too."""
    labels = [[] for _ in range(events)]
    own = 1 if rng.random() < 0.1 else 0
    order = distinct(len(signals), lambda: pick(0, len(signals) - 1))
    givers = [(signals[signal], order[: place + own]) for place, signal in enumerate(order)]
    for event, known in givers + [(event, order) for event in range(1, events) if event not in signals]:
        if event != 0 and known and rng.random() < 0.6:
            letters = distinct(pick(1, len(known)), lambda: one_of(known))
            labels[event] = completed([(signal, rng.random() < 0.5) for signal in letters], signals, labels)
    return labels


def draw(slow, labelled):
    """A network: horizon, count of events, the event of each signal, the rules, the reaction of each signal: 1, or
    others too; and the label of each event: none, or others too."""
    horizon, events = one_of([0, 1, 1, 2, 2, 3, 3, 4, 4]), one_of([1, 2, 2, 3, 3, 3, 4, 4])
    signals = distinct(min(events, one_of([0, 1, 1, 2, 2])), lambda: pick(0, events - 1))
    rules = [rule(events, len(signals)) for _ in range(pick(0, 6))]
    reactions = [one_of([1, 2, 2, 2, 3, 4, 60]) if slow else 1 for _ in signals]
    labels = draw_labels(events, signals) if labelled else [[] for _ in range(events)]
    rules = [(*rest, completed(asked, signals, labels)) for *rest, asked in rules]
    return horizon, events, signals, rules, reactions, labels


def table_count(net):
    horizon, events, signals, *_ = net
    return (horizon + 1) ** ((events - 1) * 2 ** len(signals))


def truth(case, signal):
    return case // 2**signal % 2 == 1


def agrees(case, label):
    return all(truth(case, signal) == value for signal, value in label)


def happens(net, case, event):
    """02, point 6: an event happens where its label holds."""
    return agrees(case, net[5][event])


def holds(rule, row):
    kind, start, end, limit, _ = rule
    difference = row[end] - row[start]
    return {"max": difference <= limit, "min": difference >= limit}[kind]


def lawful(net, case, row):
    """Point 2 in one case, for the rules whose events both happen there; and that each event that happens comes no
    sooner than the signals in its label, each with its reaction."""
    here = [event for event in range(net[1]) if happens(net, case, event)]
    asked = [rule for rule in net[3] if agrees(case, rule[4]) and rule[1] in here and rule[2] in here]
    known = [row[event] + reaction for event, reaction in zip(net[2], net[4])]
    waits = all(known[signal] <= row[event] for event in here for signal, _ in net[5][event])
    return waits and all(holds(rule, row) for rule in asked)


def told(net, table, s, r, u):
    """Whether a signal that is given in s, and on which s and r differ, counts in s when u happens there."""
    known = [table[s][event] + reaction for event, reaction in zip(net[2], net[4])]
    given = [i for i, event in enumerate(net[2]) if happens(net, s, event)]
    return any(truth(s, i) != truth(r, i) and known[i] <= table[s][u] for i in given)


def keeps_point_3(net, table):
    """For the events that happen in both cases."""
    pairs = itertools.product(range(len(table)), repeat=2)
    both = [(s, r, u) for s, r in pairs for u in range(net[1]) if happens(net, s, u) and happens(net, r, u)]
    return all(table[s][u] == table[r][u] or told(net, table, s, r, u) for s, r, u in both)


def lawful_rows(net):
    """For each case every row whose start is at 0, whose minutes are at most H, and which is blank where an event does
    not happen, of which point 2 holds."""
    def rows(case):
        cells = [range(net[0] + 1) if happens(net, case, event) else [BLANK] for event in range(1, net[1])]
        return [(0, *rest) for rest in itertools.product(*cells)]
    return [[row for row in rows(case) if lawful(net, case, row)] for case in range(2 ** len(net[2]))]


def least(tables):
    """Cell by cell the least over the tables."""
    return [[min(minutes) for minutes in zip(*rows)] for rows in zip(*tables)]


def outcome(net):
    """What there is to see in the answer, by trying every table. Point 3 is about two cases, so it is asked as each case's row is put
    behind the others: what it forbids then is forbidden in every table that begins so."""
    by_case, good = lawful_rows(net), [()]
    for rows in by_case:
        longer = ((*table, row) for table in good for row in rows)
        good = [table for table in longer if keeps_point_3(net, table)]
    if not good:
        return ["none", "unheard"] if all(by_case) else ["none"]
    columns = [{minute for minute in column if minute != BLANK} for column in zip(*least(good))]
    found = ["table"]
    found += ["waits"] if any(column - {0} for column in columns) else []
    found += ["differs"] if any(len(column) > 1 for column in columns) else []
    return found


def text(net):
    horizon, events, signals, rules, reactions, labels = net
    names = distinct(events, name)
    letters = distinct(len(signals), lambda: one_of("abcdefghijklmnopqrstuvwxyz"))
    lines = [f"horizon,{horizon}", f"events,{events}", *names, f"signals,{len(signals)}"]
    lines += [f"{letter},{names[event]}" for letter, event in zip(letters, signals)]
    lines += [f"rules,{len(rules)}"]
    literals = lambda label: "".join(("" if value else "!") + letters[signal] for signal, value in label) or "-"
    for kind, start, end, limit, asked in rules:
        lines.append(f"{kind},{names[start]},{names[end]},{limit},{literals(asked)}")
    order = distinct(len(signals), lambda: pick(0, len(signals) - 1))
    listed = [signal for signal in order if reactions[signal] > 1 or rng.random() < 0.2]
    told_labels = []
    if any(labels) or rng.random() < 0.1:
        order = distinct(events, lambda: pick(0, events - 1))
        named = [event for event in order if labels[event] or rng.random() < 0.2]
        told_labels = [f"cases,{len(named)}"] + [f"{names[event]},{literals(labels[event])}" for event in named]
    if listed or told_labels or rng.random() < 0.1:
        lines += [f"reactions,{len(listed)}"] + [f"{letters[signal]},{reactions[signal]}" for signal in listed]
    lines += told_labels
    return "".join(line + "\n" for line in lines)


# What a sheet is to show, by its place: half have a table. "waits": some minute is not 0; "differs": some event has
# other minutes in other cases; "unheard": every case by itself could be kept, and only point 3 forbids them together.
WANTED = ["differs", "unheard", "waits", "none", "table", "none"]


def draw_sheet(place):
    """Every 25th sheet is large. Of those that show one thing, every second has a reaction other than 1, and half of
    either kind have a labelled event."""
    wanted = WANTED[place % len(WANTED)]
    slow, labelled = place // len(WANTED) % 2 == 1, place // len(WANTED) % 4 > 1
    large = place % (SHEETS // LARGE_SHEETS) == 0
    while True:
        net = draw(slow, labelled)
        in_range = MANY_TABLES < table_count(net) <= MOST_TABLES if large else table_count(net) <= MANY_TABLES
        as_asked = any(reaction > 1 for reaction in net[4]) == slow and any(net[5]) == labelled
        if in_range and as_asked and wanted in (shown := outcome(net)):
            return text(net), "table" in shown


def main():
    sheets = [draw_sheet(place) for place in range(SHEETS)]
    if sys.argv[1:] != ["expected"]:
        FILE.write_text("".join(sheet + "=\n" for sheet, _ in sheets))
        return
    for number, (_, found) in enumerate(sheets, 1):
        print(f"small {number} agree {'table' if found else 'none'}")
    with_table = sum(found for _, found in sheets)
    print(f"small sheets: {with_table} with a table, {SHEETS - with_table} without, 0 differ")


if __name__ == "__main__":
    main()
