"""Cases made for one rule each: what breaks just that rule, beside a neighbour that is just good.

    directed_cases.py               the cases, as the conformance program reads them, without the 0 that ends a stream
    directed_cases.py --refusals    for each answer its word, the refusal that the documents give, and the case's name
    directed_cases.py --reasons     the answers that the documents give to the cases why

Tables that break the layout stand in hostile_tables.py.
"""

import sys

TOP = 2 ** 32 - 1


# ---------------------------------------------------------------- sheets

def atomic(parent=0):
    return [0, parent, 0]


def serial(parent, first):
    return [1, parent, first]


def parallel(parent=0):
    return [2, parent, 0]


def on(event):
    return [1, event]


def off(event):
    return [2, event]


def active(*modes):
    return [3, mask(*modes)]


def entered(mode):
    return [4, mode]


def exited(mode):
    return [5, mode]


def taken(transition):
    return [6, transition]


def after(delay):
    return [0, delay]


OR = [7, 0]


def arrow(source, target, *terms):
    return [source, target] + sum(terms, [])


def mask(*members):
    return sum(1 << m for m in members)


def sheet(k, modes, *arrows):
    """The words of a sheet; T is the number of arrows."""
    offset = 3 + 3 * len(modes) + 2 * len(arrows)
    words = [len(modes), k, len(arrows)] + sum(modes, [])
    for record in arrows:
        words += [offset, len(record)]
        offset += len(record)
    return words + sum(arrows, [])


def flat(count):
    """A serial root over the atomic modes 1 to count."""
    return [serial(0, 1)] + [atomic()] * count


def regions(*sizes):
    """A parallel root over serial regions: mode 1 with its modes 2, 3, .., then the next region with its own."""
    modes = [parallel()]
    for size in sizes:
        region = len(modes)
        modes += [serial(0, region + 1)] + [atomic(region)] * size
    return modes


def going_round(count, first, size):
    """As many arrows in a region of `size` modes (an even number) from `first` on, so that others get higher numbers;
    each is taken by some cell. Event 0 moves it from every second mode, its absence from the others; event 1 is the
    direction; event 2 leaps on by two."""
    steps = [arrow(first + i, first + (i + way) % size, off(2), by, off(0) if i % 2 else on(0))
             for way, by in ((1, on(1)), (size - 1, off(1))) for i in range(size)]
    leaps = [arrow(first + i, first + i + 2, on(2), on(0)) for i in range(0, size - 2, 2)]
    return (steps + leaps)[:count]


def changed(words, places):
    return [places.get(at, word) for at, word in enumerate(words)]


TWO = flat(2)
THREE = flat(3)
GO = arrow(1, 2, on(0))
BACK = arrow(2, 1, off(0))
LONG = [arrow(s, t, on(0)) for s in range(1, 10) for t in range(1, 10) if s != t]
NEST = [serial(0, 1), serial(0, 2), atomic(1), atomic(1), serial(0, 5), atomic(4), atomic(4)]   # 1: 2 3, 4: 5 6
BOTH = [serial(0, 1), parallel(), serial(1, 3), atomic(2), atomic(2), serial(1, 6), atomic(5), atomic(5), atomic()]
# BOTH: 1 is parallel over 2 (3, 4) and 5 (6, 7); 8 is beside it

# a name, the refusal, the sheet
SHEETS = [
    # 1: the head
    ("no word", 1, []),
    ("one word", 1, [1]),
    ("two words", 1, [1, 0]),
    ("the head alone", 1, [1, 0, 0]),
    ("n is 1", 0, sheet(0, [atomic()])),
    ("n is 0", 1, sheet(0, [])),
    ("n is 32", 0, sheet(0, flat(31))),
    ("n is 33", 1, sheet(0, flat(32))),
    ("n is 2^32 - 1", 1, changed(sheet(0, TWO), {0: TOP})),
    ("k is 6", 0, sheet(6, TWO, GO)),
    ("k is 7", 1, sheet(7, TWO, GO)),
    ("T is 64", 0, sheet(1, flat(9), *LONG[:64])),
    ("T is 65", 1, sheet(1, flat(9), *LONG[:65])),
    ("T is 2^32 - 1", 1, changed(sheet(0, TWO), {2: TOP})),
    ("the last word of the modes is missing", 1, sheet(0, TWO)[:-1]),
    ("the last word of the pairs is missing", 1, sheet(1, TWO, GO, BACK)[:15]),
    ("the pairs are there and no record", 3, sheet(1, TWO, GO, BACK)[:16]),
    # 2: mode rows
    ("the root is parallel", 0, sheet(0, [parallel(), atomic()])),
    ("the root is of kind 3", 2, sheet(0, [[3, 0, 0], atomic()])),
    ("a mode is of kind 3", 2, sheet(0, [serial(0, 1), [3, 0, 0], atomic(1)])),
    ("a mode's parent is the mode before", 0, sheet(0, [serial(0, 1), serial(0, 2), atomic(1), atomic()])),
    ("a mode is its own parent", 2, sheet(0, [serial(0, 3), serial(1, 2), atomic(1), atomic()])),
    ("a mode's parent has a higher number", 2, sheet(0, [serial(0, 2), atomic(2), serial(0, 1)])),
    ("a mode's parent is n", 2, sheet(0, [serial(0, 1), atomic(), atomic(3)])),
    ("a mode's parent is atomic", 2, sheet(0, [serial(0, 1), atomic(), atomic(1)])),
    ("the root's parent is 1", 2, sheet(0, [serial(1, 1), atomic()])),
    ("the only mode's parent is 1", 2, sheet(0, [atomic(1)])),
    ("a serial mode without a child", 2, sheet(0, [serial(0, 0)])),
    ("a parallel mode without a child", 2, sheet(0, [parallel()])),
    ("an inner parallel mode with a child", 0, sheet(0, [serial(0, 1), parallel(), atomic(1)])),
    ("an inner parallel mode without a child", 2, sheet(0, [serial(0, 1), parallel(), atomic()])),
    ("a first mode that is the second child", 0, sheet(0, [serial(0, 2), atomic(), atomic()])),
    ("a first mode that is a child's child", 2, sheet(0, [serial(0, 2), serial(0, 2), atomic(1)])),
    ("a first mode that is the root itself", 2, sheet(0, [serial(0, 0), atomic()])),
    ("a first mode that is n", 2, sheet(0, [serial(0, 2), atomic()])),
    ("a first mode that is the parent's other child", 2, sheet(0, [serial(0, 1), serial(0, 3), atomic(1), atomic()])),
    ("the root is atomic with a first mode", 2, sheet(0, [[0, 0, 1]])),
    ("an atomic mode with a first mode", 2, sheet(0, [serial(0, 1), [0, 0, 1]])),
    ("a parallel mode with a first mode", 2, sheet(0, [[2, 0, 1], atomic()])),
    # 3: pairs
    ("T is 0 and the sheet ends after the modes", 0, sheet(0, TWO)),
    ("T is 0 and one word follows", 3, sheet(0, TWO) + [0]),
    ("T is 0 and two words follow", 3, sheet(0, TWO) + [16, 4]),
    ("two records", 0, sheet(1, TWO, GO, BACK)),
    ("a word after the last record", 3, sheet(1, TWO, GO, BACK) + [0]),
    ("a pair of words after the last record", 3, sheet(1, TWO, GO, BACK) + [1, 0]),
    ("the last record is one word short", 3, sheet(1, TWO, GO, BACK)[:-1]),
    ("pairs in the other order", 3, changed(sheet(1, TWO, GO, BACK), {12: 20, 14: 16})),
    ("the first offset is one too high", 3, changed(sheet(1, TWO, GO, BACK), {12: 17})),
    ("the second offset is one too low", 3, changed(sheet(1, TWO, GO, BACK), {14: 19})),
    ("the second offset is 2^32 - 1", 3, changed(sheet(1, TWO, GO, BACK), {14: TOP})),
    ("a gap before the first record", 3, changed(sheet(1, TWO, GO)[:14] + [0, 0] + GO, {12: 16})),
    ("a record of 5 words", 3, sheet(1, TWO, GO + [1])),
    ("a record of 2 words", 3, sheet(1, TWO, arrow(1, 2))),
    ("a record of 34 words", 0, sheet(1, TWO, arrow(1, 2, on(0) * 16))),
    ("a record of 36 words", 3, sheet(1, TWO, arrow(1, 2, on(0) * 17))),
    ("a first record of 36 words", 3, sheet(1, TWO, arrow(1, 2, on(0) * 17), BACK)),
    # 4: transition ends
    ("source n - 1", 0, sheet(1, TWO, arrow(2, 1, on(0)))),
    ("source n", 4, sheet(1, TWO, arrow(3, 1, on(0)))),
    ("source 2^32 - 1", 4, sheet(1, TWO, arrow(TOP, 1, on(0)))),
    ("target n", 4, sheet(1, TWO, arrow(1, 3, on(0)))),
    ("target 2^32 - 1", 4, sheet(1, TWO, arrow(1, TOP, on(0)))),
    ("source equal to target", 4, sheet(1, TWO, arrow(1, 1, on(0)))),
    ("source the root", 4, sheet(1, TWO, arrow(0, 1, on(0)))),
    ("target the root", 4, sheet(1, TWO, arrow(1, 0, on(0)))),
    ("the root to itself", 4, sheet(1, TWO, arrow(0, 0, on(0)))),
    ("source contains target", 4, sheet(1, NEST, arrow(1, 3, on(0)))),
    ("target contains source", 4, sheet(1, NEST, arrow(3, 1, on(0)))),
    ("source beside a mode that contains the target", 0, sheet(1, NEST, arrow(4, 3, on(0)))),
    ("source inside, target beside", 0, sheet(1, NEST, arrow(3, 4, on(0)))),
    ("source inside and target inside another", 0, sheet(1, NEST, arrow(3, 6, on(0)))),
    ("the parallel root's children", 4, sheet(1, regions(2, 2), arrow(1, 4, on(0)))),
    ("from one region of the parallel root into another", 4, sheet(1, regions(2, 2), arrow(2, 6, on(0)))),
    ("from one region of an inner parallel mode into another", 4, sheet(1, BOTH, arrow(4, 7, on(0)))),
    ("out of an inner parallel mode", 0, sheet(1, BOTH, arrow(4, 8, on(0)))),
    ("within a region of an inner parallel mode", 0, sheet(1, BOTH, arrow(6, 7, on(0)))),
    ("the second record's source is n", 4, sheet(1, TWO, GO, arrow(3, 1, on(0)))),
    # 5: terms
    ("a delay of 0", 0, sheet(1, TWO, arrow(1, 2, after(0)))),
    ("a delay of 65,535", 0, sheet(1, TWO, arrow(1, 2, after(65535)))),
    ("a delay of 65,536", 5, sheet(1, TWO, arrow(1, 2, after(65536)))),
    ("a delay before another pair", 5, sheet(1, TWO, arrow(1, 2, after(1), on(0)))),
    ("a delay after another pair", 5, sheet(1, TWO, arrow(1, 2, on(0), after(1)))),
    ("two delays", 5, sheet(1, TWO, arrow(1, 2, after(1), after(1)))),
    ("a delay as an alternative", 5, sheet(1, TWO, arrow(1, 2, on(0), OR, after(1)))),
    ("event k - 1 present", 0, sheet(2, TWO, arrow(1, 2, on(1)))),
    ("event k present", 5, sheet(2, TWO, arrow(1, 2, on(2)))),
    ("event k - 1 absent", 0, sheet(2, TWO, arrow(1, 2, off(1)))),
    ("event k absent", 5, sheet(2, TWO, arrow(1, 2, off(2)))),
    ("event 0 with k = 0", 5, sheet(0, TWO, arrow(1, 2, on(0)))),
    ("event 0 absent with k = 0", 5, sheet(0, TWO, arrow(1, 2, off(0)))),
    ("a mask with mode n - 1", 0, sheet(1, TWO, arrow(1, 2, active(2)))),
    ("a mask with mode n", 5, sheet(1, TWO, arrow(1, 2, active(3)))),
    ("a mask with modes n - 1 and n", 5, sheet(1, TWO, arrow(1, 2, active(2, 3)))),
    ("a mask of all modes", 0, sheet(1, TWO, arrow(1, 2, active(0, 1, 2)))),
    ("a mask of 0", 5, sheet(1, TWO, arrow(1, 2, active()))),
    ("a mask of 32 modes", 0, sheet(1, flat(31), arrow(1, 2, active(*range(32))))),
    ("mode n - 1 entered", 0, sheet(1, TWO, arrow(1, 2, entered(2)))),
    ("mode n entered", 5, sheet(1, TWO, arrow(1, 2, entered(3)))),
    ("mode n - 1 exited", 0, sheet(1, TWO, arrow(1, 2, exited(2)))),
    ("mode n exited", 5, sheet(1, TWO, arrow(1, 2, exited(3)))),
    ("transition T - 1 taken", 0, sheet(1, TWO, GO, arrow(2, 1, taken(1)))),
    ("transition T taken", 5, sheet(1, TWO, GO, arrow(2, 1, taken(2)))),
    ("or between two terms", 0, sheet(1, TWO, arrow(1, 2, on(0), OR, off(0)))),
    ("or first", 5, sheet(1, TWO, arrow(1, 2, OR, on(0)))),
    ("or last", 5, sheet(1, TWO, arrow(1, 2, on(0), OR))),
    ("or alone", 5, sheet(1, TWO, arrow(1, 2, OR))),
    ("or doubled", 5, sheet(1, TWO, arrow(1, 2, on(0), OR, OR, off(0)))),
    ("or twice, a term between", 0, sheet(1, TWO, arrow(1, 2, on(0), OR, entered(1), OR, off(0)))),
    ("or with a value", 5, sheet(1, TWO, arrow(1, 2, on(0), [7, 1], off(0)))),
    ("kind 8", 5, sheet(1, TWO, arrow(1, 2, [8, 0]))),
    ("kind 2^32 - 1", 5, sheet(1, TWO, arrow(1, 2, [TOP, 0]))),
    ("kind 8 between two good pairs", 5, sheet(1, TWO, arrow(1, 2, on(0), [8, 0], off(0)))),
    ("kind 8 after a good pair", 5, sheet(1, TWO, arrow(1, 2, on(0), [8, 0]))),
    ("kind 8 in the second record", 5, sheet(1, TWO, GO, arrow(2, 1, [8, 0]))),
    # 6: shared ends
    ("there and back", 0, sheet(1, THREE, GO, BACK)),
    ("one source, two targets", 0, sheet(1, THREE, GO, arrow(1, 3, off(0)))),
    ("two sources, one target", 0, sheet(1, THREE, GO, arrow(3, 2, on(0)))),
    ("shared ends", 6, sheet(1, THREE, GO, arrow(1, 2, off(0)))),
    ("shared ends, another record between", 6, sheet(1, THREE, GO, BACK, arrow(1, 2, after(3)))),
    # the lowest that applies
    ("1 and 2: k is 7, the root of kind 3", 1, sheet(7, [[3, 0, 0], atomic()])),
    ("1 and 2: the root of kind 3, its pair missing", 1, sheet(1, [[3, 0, 0], atomic(), atomic()], GO)[:12]),
    ("2 and 3: the root of kind 3, a word after the modes", 2, sheet(0, [[3, 0, 0], atomic()]) + [0]),
    ("2 and 3: a first mode that is no child, a wrong offset", 2,
     changed(sheet(1, [serial(0, 0), atomic(), atomic()], GO), {12: 15})),
    ("2 and 4: the root of kind 3, source n", 2, sheet(1, [[3, 0, 0], atomic(), atomic()], arrow(3, 1, on(0)))),
    ("3 and 4: a word after the last record, source n", 3, sheet(1, TWO, arrow(3, 1, on(0))) + [0]),
    ("3 and 4: source n in record 0, an odd length in record 1", 3, sheet(1, TWO, arrow(3, 1, on(0)), GO + [1])),
    ("3 and 5: kind 8, a word after the last record", 3, sheet(1, TWO, arrow(1, 2, [8, 0])) + [0]),
    ("3 and 6: shared ends, a word after the last record", 3, sheet(1, TWO, GO, GO) + [0]),
    ("4 and 5: source equal to target, kind 8", 4, sheet(1, TWO, arrow(1, 1, [8, 0]))),
    ("4 and 5: kind 8 in record 0, source equal to target in record 1", 4,
     sheet(1, TWO, arrow(1, 2, [8, 0]), arrow(1, 1, on(0)))),
    ("4 and 6: shared ends, source equal to target", 4, sheet(1, TWO, arrow(1, 1, on(0)), arrow(1, 1, off(0)))),
    ("5 and 6: shared ends, kind 8", 5, sheet(1, TWO, GO, arrow(1, 2, [8, 0]))),
    ("5 and 6: shared ends in records 0 and 1, kind 8 in record 2", 5, sheet(1, TWO, GO, GO, arrow(2, 1, [8, 0]))),
]

# one sheet for each of 1 to 6
BROKEN = {
    1: sheet(7, TWO, GO), 2: sheet(1, [[3, 0, 0], atomic(), atomic()], GO), 3: sheet(1, TWO, GO) + [0],
    4: sheet(1, TWO, arrow(3, 1, on(0))), 5: sheet(1, TWO, arrow(1, 2, [8, 0])), 6: sheet(1, TWO, GO, GO),
}


# ---------------------------------------------------------------- states

# a mode set or block, readings by transition, and ages by mode where some are not 0
FRESH = (0, {})

# 1: 2 3, 4: 5 6; transition 3 is a delay of 0, so the modes 4 and 6 are never reached together at the end of a tick
CLOCKS = sheet(1, regions(2, 2), arrow(2, 3, after(4)), arrow(3, 2, on(0)), arrow(5, 6, after(2)),
               arrow(6, 5, after(0)))
SERIES = sheet(1, NEST, arrow(2, 3, after(4)), arrow(1, 4, on(0)), arrow(4, 1, on(0)), arrow(4, 3, off(0)))
START = mask(0, 1, 2, 4, 5)

# a name, the refusal, the state; reading plus age of its source is a running timer's delay
CLOCK_STATES = [
    ("fresh", 0, FRESH),
    ("readings at their delays", 0, (START, {0: 4, 2: 2})),
    ("readings of 1", 0, (START, {0: 1, 2: 1}, {2: 3, 5: 1})),
    ("a reading of its delay + 1", 14, (START, {0: 5, 2: 2})),
    ("the second timer's reading is its delay + 1", 14, (START, {0: 4, 2: 3})),
    ("a reading of 0 for a running timer", 14, (START, {2: 2}, {2: 4})),
    ("a reading of 0 for a running timer, its source entered just now", 14, (START, {2: 2})),
    ("no reading for either timer", 14, (START, {}, {2: 4, 5: 2})),
    ("one timer runs", 0, (mask(0, 1, 3, 4, 5), {2: 2})),
    ("a reading for a timer that does not run", 14, (mask(0, 1, 3, 4, 5), {0: 1, 2: 2})),
    ("a reading for a transition with terms", 14, (mask(0, 1, 3, 4, 5), {1: 1, 2: 2})),
    ("a set that no run reaches", 0, (mask(0, 1, 2, 4, 6), {0: 4})),
    ("a reading for a delay of 0", 14, (mask(0, 1, 2, 4, 6), {0: 4, 3: 1})),
    ("a reading at T", 14, (START, {0: 4, 2: 2, 4: 1})),
    ("a reading at 31", 14, (START, {0: 4, 2: 2, 31: 1})),
    ("a reading at 63", 14, (START, {0: 4, 2: 2, 63: 1})),
    ("a reading of 2^32 - 1", 14, (START, {0: TOP, 2: 2})),
    ("a reading of 2^32 - 1 and an age of 5", 14, (START, {0: TOP, 2: 2}, {2: 5})),
    ("fresh with one reading", 14, (0, {0: 1})),
    ("fresh with a reading at 63", 14, (0, {63: 1})),
    ("a child of the parallel root is missing", 14, (mask(0, 1, 2), {0: 4})),
    ("two children of a serial mode", 14, (mask(0, 1, 2, 3, 4, 5), {0: 4, 2: 2})),
    ("no child of a serial mode", 14, (mask(0, 1, 4, 5), {2: 2})),
    ("no root", 14, (mask(1, 2, 4, 5), {0: 4, 2: 2})),
    ("the root alone", 14, (mask(0), {})),
    ("a bit at n", 14, (START | mask(7), {0: 4, 2: 2})),
    ("a bit at 31", 14, (START | mask(31), {0: 4, 2: 2})),
]
SERIES_STATES = [
    ("the first modes", 0, (mask(0, 1, 2), {0: 4})),
    ("a parent is missing", 14, (mask(0, 1, 2, 5), {0: 4})),
    ("a lone mode without its parent", 14, (mask(0, 2), {0: 4})),
    ("two children of the serial root", 14, (mask(0, 1, 2, 4, 5), {0: 4})),
    ("the other child of the root", 0, (mask(0, 4, 6), {})),
]
FULL = sheet(0, flat(31), arrow(31, 30, after(3)), arrow(1, 31, after(1)))
FULL_STATES = [
    ("mode 31 with its timer", 0, (mask(0, 31), {0: 3})),
    ("modes 30 and 31", 14, (mask(0, 30, 31), {0: 3})),
]
# the blocks of the table of CLOCKS: 1 is START, 2 is the set with mode 3 in place of 2
TABLE_STATES = [
    ("fresh", 0, FRESH),
    ("readings at their delays", 0, (1, {0: 4, 2: 2})),
    ("readings of 1", 0, (1, {0: 1, 2: 1})),
    ("a reading of its delay + 1", 14, (1, {0: 5, 2: 2})),
    ("a reading of 0 for a running timer", 14, (1, {2: 2})),
    ("block B - 1", 0, (2, {2: 2})),
    ("a reading for a timer that does not run", 14, (2, {0: 1, 2: 2})),
    ("a reading for a transition with terms", 14, (2, {1: 1, 2: 2})),
    ("a reading at T", 14, (1, {0: 4, 2: 2, 4: 1})),
    ("a reading at 63", 14, (1, {0: 4, 2: 2, 63: 1})),
    ("block B", 14, (3, {2: 2})),
    ("block B without a reading", 14, (3, {})),
    ("block 2^32 - 1", 14, (TOP, {})),
    ("block 0 with a reading", 14, (0, {0: 1})),
    ("block 0 with a reading at 63", 14, (0, {63: 1})),
]

# a name, the refusal, the state, the input sets, the output words; on CLOCKS, k = 1, and on its table alike
GOOD, BAD = "good", "bad"
RUNS = [
    ("no input set and no output word", 0, GOOD, [], 0),
    ("no input set, output words left as they are", 0, GOOD, [], 7),
    ("no input set, a bad state", 14, BAD, [], 0),
    ("5 output words a set", 0, GOOD, [0, 1], 10),
    ("one output word less", 12, GOOD, [0, 1], 9),
    ("one output word more", 0, GOOD, [0, 1], 11),
    ("one set and 4 output words", 12, GOOD, [0], 4),
    ("one set and no output word", 12, GOOD, [0], 0),
    ("input set k - 1", 0, GOOD, [1], 5),
    ("input set with a bit at k", 13, GOOD, [2], 5),
    ("input set with bits at k - 1 and k", 13, GOOD, [3], 5),
    ("input set with bit 31", 13, GOOD, [2 ** 31], 5),
    ("the third set has a bit at k", 13, GOOD, [0, 1, 2, 0], 20),
    ("14 and 12", 14, BAD, [0], 4),
    ("14 and 13", 14, BAD, [2], 5),
    ("12 and 13", 12, GOOD, [2], 4),
    ("12 and 13, the words of the first set are there", 12, GOOD, [0, 2], 9),
]


# ---------------------------------------------------------------- ticks

ON, OFF = 1, 0
INNER = [serial(0, 1), serial(0, 2), atomic(1), atomic(1), atomic()]                            # 1: 2 3, 4
DEEP = [serial(0, 1), serial(0, 2), serial(1, 3), atomic(2), atomic(2), atomic(1), atomic()]    # 1: 2 (3 4) 5, 6
# 1: 3 (5: 7 (9 10), 8; 6), 4; 2
LEVELS = [serial(0, 1), parallel(), atomic(), serial(1, 5), atomic(1), parallel(3), atomic(3), serial(5, 9), atomic(5),
          atomic(7), atomic(7)]


def seen_early(term):
    """2 to 3 on the event brings the term about; 5 leaves for 6 at once, and for 7 only by a term judged too early."""
    return sheet(1, regions(2, 3), GO_2, arrow(5, 6, on(0)), arrow(5, 7, term))


GO_2 = arrow(2, 3, on(0))
SIDES = [arrow(3, 4, on(0)), arrow(6, 8, on(0))]
NESTED = [arrow(1, 4, on(0)), arrow(2, 4, on(0))]
LEAVING = [arrow(9, 10, on(0)), arrow(8, 6, on(1)), arrow(4, 2, on(2))]
GIVING = [arrow(2, 3, on(0)), arrow(1, 4, on(0))]
RESTLESS = [arrow(2, 3, on(0)), arrow(3, 2, taken(0))]

# a name, the sheet, the input sets of a run from power-on, what it is refused, what compile is refused
TICKS = [
    # what terms are judged on
    ("a mode left in round 1 counts as active in round 2",
     sheet(1, regions(2, 2), GO_2, arrow(5, 6, taken(0), active(2))), [OFF, ON, ON], 0, 0),
    ("a mode left in round 1 is no source in round 2",
     sheet(1, flat(3), arrow(1, 2, on(0)), arrow(1, 3, taken(0))), [OFF, ON, ON], 0, 21),
    ("entered, as the round began", seen_early(entered(3)), [OFF, ON], 0, 21),
    ("exited, as the round began", seen_early(exited(2)), [OFF, ON], 0, 21),
    ("taken, as the round began", seen_early(taken(0)), [OFF, ON], 0, 21),
    ("active, as the round began", seen_early(active(3)), [OFF, ON], 0, 21),
    ("entered, a round later", sheet(1, regions(2, 2), arrow(5, 6, entered(3)), arrow(2, 3, on(0))), [OFF, ON], 0, 0),
    ("exited, a round later", sheet(1, regions(2, 2), arrow(5, 6, exited(2)), arrow(2, 3, on(0))), [OFF, ON], 0, 0),
    ("taken, a round later", sheet(1, regions(2, 2), arrow(5, 6, taken(1)), arrow(2, 3, on(0))), [OFF, ON], 0, 0),
    ("active, a round later", sheet(1, regions(2, 2), arrow(5, 6, active(3)), arrow(2, 3, on(0))), [OFF, ON], 0, 0),
    ("entered, exited and taken are empty in the next tick",
     sheet(2, regions(2, 2, 2, 2), GO_2, arrow(5, 6, entered(3), on(1)), arrow(8, 9, exited(2), on(1)),
           arrow(11, 12, taken(0), on(1))), [0, 1, 2, 3], 0, 0),
    ("some mode of the mask is active", sheet(1, regions(2, 2), arrow(2, 3, active(3, 6), on(0)),
                                              arrow(5, 6, active(3, 5), on(0))), [OFF, ON, ON], 0, 0),
    ("all terms of an alternative hold, or not", sheet(3, TWO, arrow(1, 2, on(0), on(1), off(2)),
                                                       arrow(2, 1, on(2))), [0, 1, 2, 7, 4, 3, 4], 0, 0),
    ("the second alternative holds", sheet(2, TWO, arrow(1, 2, on(0), on(1), OR, off(0)),
                                           arrow(2, 1, off(1), on(0))), [3, 1, 2, 1, 1, 0], 0, 0),
    ("the third alternative holds", sheet(2, TWO, arrow(1, 2, on(0), off(0), OR, on(1), off(1), OR, on(1), on(0))),
     [1, 2, 0, 3], 0, 0),
    ("event 5 of six", sheet(6, TWO, arrow(1, 2, on(5), on(0)), arrow(2, 1, off(5))), [0, 32, 33, 63, 31], 0, 0),
    ("no event", sheet(0, TWO, arrow(1, 2, after(2)), arrow(2, 1, after(1))), [0, 0, 0, 0], 0, 0),
    ("no transition", sheet(2, NEST), [0, 3, 1], 0, 0),
    ("one mode", sheet(0, [atomic()]), [0, 0], 0, 0),
    # power-on
    ("entered at power-on", sheet(1, THREE, arrow(1, 2, entered(1)), arrow(2, 3, on(0))), [OFF, ON, OFF], 0, 0),
    ("the root is entered at power-on only",
     sheet(1, THREE, arrow(1, 2, entered(0)), arrow(2, 3, on(0)), arrow(3, 1, off(0))), [OFF, ON, OFF, OFF], 0, 0),
    ("nothing exited or taken at power-on", sheet(1, regions(2, 2), arrow(2, 3, exited(2)), arrow(5, 6, taken(0))),
     [OFF, OFF], 0, 21),
    ("active at power-on", sheet(1, regions(2, 2), arrow(2, 3, active(5)), arrow(5, 6, active(6))), [OFF, OFF], 0, 21),
    ("a transition in the first tick", sheet(1, TWO, GO, BACK), [ON, ON, OFF], 0, 0),
    ("ambiguous at power-on", sheet(0, THREE, arrow(1, 2, entered(1)), arrow(1, 3, entered(1))), [0], 8, 8),
    ("restless at power-on", sheet(0, TWO, arrow(1, 2, entered(1)), arrow(2, 1, entered(1))), [0], 9, 9),
    # delays and readings
    ("a delay of 0", sheet(1, THREE, arrow(1, 2, after(0)), arrow(2, 3, on(0))), [OFF, OFF, ON], 0, 0),
    ("a delay of 0 and an event, there and back",
     sheet(1, THREE, arrow(2, 1, after(0)), arrow(1, 2, on(0))), [OFF, ON, OFF], 9, 9),
    ("a delay of 1", sheet(1, TWO, arrow(1, 2, after(1)), arrow(2, 1, after(1))), [0, 0, 0, 0], 0, 0),
    ("a delay of 65,535", sheet(0, TWO, arrow(1, 2, after(65535))), [0, 0, 0], 0, 0),
    ("a timer starts in the tick that enters its source", sheet(1, THREE, arrow(1, 2, on(0)), arrow(2, 3, after(1))),
     [OFF, ON, OFF, OFF], 0, 0),
    ("a timer is taken and restarts where its source is entered again in one tick",
     sheet(0, TWO, arrow(1, 2, after(3)), arrow(2, 1, taken(0))), [0] * 8, 0, 0),
    ("a timer restarts where its source is left by another transition and entered again in one tick",
     sheet(1, DEEP, arrow(2, 5, after(3)), arrow(3, 6, on(0)), arrow(6, 4, taken(1))), [0, 0, ON, 0, 0, 0], 0, 0),
    ("a timer goes on where another region moves",
     sheet(1, regions(2, 2), arrow(2, 3, after(3)), arrow(5, 6, on(0)), arrow(6, 5, off(0))), [0, ON, 0, ON, 0], 0, 0),
    ("a timer goes on where a child of its source moves",
     sheet(1, INNER, arrow(1, 4, after(3)), arrow(2, 3, on(0)), arrow(3, 2, off(0))), [0, ON, 0, ON, 0], 0, 0),
    ("a timer's source is left and not entered again", sheet(1, INNER, arrow(2, 3, after(5)), arrow(1, 4, on(0))),
     [0, 0, ON], 0, 0),
    ("a timer's source is left, and entered in a later tick",
     sheet(1, INNER, arrow(2, 3, after(5)), arrow(1, 4, on(0)), arrow(4, 1, off(0))), [0, 0, ON, ON, 0, 0], 0, 0),
    ("a timer's source is left with the mode that holds it",
     sheet(1, INNER, arrow(3, 2, after(4)), arrow(2, 3, entered(2)), arrow(1, 4, on(0))), [0, 0, ON, ON], 0, 0),
    ("a timer of the root's child runs at power-on and is taken in round 2",
     sheet(1, regions(2, 3), arrow(2, 3, after(2)), arrow(5, 6, taken(0)), arrow(6, 7, exited(5))), [0, 0, 0, 0], 0, 0),
    ("a due timer gives way, its source is left and entered again",
     sheet(0, INNER, arrow(2, 3, after(2)), arrow(1, 4, after(2)), arrow(4, 1, taken(1))), [0, 0, 0, 0, 0], 0, 0),
    ("a due timer gives way to another region's transition, its source is left and entered again",
     sheet(1, BOTH, arrow(3, 4, after(2)), arrow(6, 8, on(0)), arrow(8, 7, taken(1))), [0, 0, ON, 0, 0, 0], 0, 0),
    ("a timer and an event leave one mode, in a run not together",
     sheet(1, INNER, arrow(1, 4, after(3)), arrow(2, 4, on(0)), arrow(4, 3, taken(1))), [0, 0, ON, 0, 0, 0], 0, 8),
    ("two timers of one source", sheet(1, THREE, arrow(1, 2, after(2)), arrow(1, 3, after(3))), [0, 0, 0], 0, 8),
    ("due together, which no clock reaches", sheet(0, regions(3, 2), arrow(2, 3, after(1)), arrow(2, 4, after(2))),
     [0, 0, 0, 0], 0, 8),
    ("restless where two are due, which no clock reaches",
     sheet(0, regions(3, 2), arrow(2, 3, after(1)), arrow(6, 7, after(2)), arrow(3, 4, taken(1)),
           arrow(4, 3, taken(0))),
     [0, 0, 0, 0], 0, 9),
    # conflict
    ("two transitions of one source", sheet(1, THREE, GO, arrow(1, 3, on(0))), [OFF, ON], 8, 8),
    ("two transitions of one source, on present and absent", sheet(1, THREE, GO, arrow(1, 3, off(0))), [ON, ON], 0, 0),
    ("two transitions of one source, the first triggered in the first round",
     sheet(1, THREE, GO, arrow(1, 3, exited(1))), [OFF, ON], 0, 21),
    ("transitions of two regions", sheet(1, regions(2, 2), GO_2, arrow(5, 6, on(0))), [OFF, ON], 0, 0),
    ("equal meeting modes, two regions left", sheet(1, BOTH, arrow(3, 8, on(0)), arrow(6, 8, on(0))), [OFF, ON], 8, 8),
    ("equal meeting modes, one source contains the other", sheet(1, INNER, *NESTED), [OFF, ON], 8, 8),
    ("equal meeting modes, one source contains the other, rows exchanged",
     sheet(1, INNER, *NESTED[::-1]), [OFF, ON], 8, 8),
    ("ambiguous in round 2", sheet(1, regions(2, 3), GO_2, arrow(5, 6, taken(0)), arrow(5, 7, taken(0))),
     [OFF, ON, OFF], 8, 8),
    ("the first tick is done, the second is ambiguous", sheet(1, THREE, GO, arrow(1, 3, on(0))), [OFF, OFF, ON], 8, 8),
    # giving way
    ("an inner transition gives way", sheet(1, INNER, *GIVING), [OFF, ON, ON], 0, 21),
    ("an inner transition gives way, rows exchanged", sheet(1, INNER, *GIVING[::-1]), [OFF, ON, ON], 0, 21),
    ("an inner transition gives way to its parent's parent", sheet(1, DEEP, arrow(3, 4, on(0)), arrow(1, 6, on(0))),
     [OFF, ON], 0, 21),
    ("three in a row give way", sheet(1, DEEP, arrow(3, 4, on(0)), arrow(2, 5, on(0)), arrow(1, 6, on(0))),
     [OFF, ON], 0, 21),
    ("three in a row give way, rows exchanged",
     sheet(1, DEEP, arrow(1, 6, on(0)), arrow(2, 5, on(0)), arrow(3, 4, on(0))), [OFF, ON], 0, 21),
    ("two of one inner source both give way",
     sheet(1, DEEP, arrow(3, 4, on(0)), arrow(3, 5, on(0)), arrow(1, 6, on(0))), [OFF, ON], 0, 21),
    ("two of one source on two levels: the higher is taken",
     sheet(1, DEEP, arrow(3, 4, on(0)), arrow(2, 5, on(0)), arrow(2, 6, on(0))), [OFF, ON], 0, 21),
    ("an outer one that is not triggered", sheet(2, INNER, arrow(2, 3, on(0)), arrow(1, 4, on(1))), [0, 1, 2], 0, 0),
    ("both regions' transitions give way to that of the parallel mode",
     sheet(1, BOTH, arrow(3, 4, on(0)), arrow(6, 7, on(0)), arrow(1, 8, on(0))), [OFF, ON], 0, 21),
    ("the outer source gives way, as its meeting mode is the inner one",
     sheet(1, DEEP, arrow(3, 6, on(0)), arrow(2, 5, on(0))), [OFF, ON], 0, 21),
    ("a region gives way to one that leaves", sheet(1, BOTH, *SIDES), [OFF, ON], 0, 21),
    ("a region gives way to one that leaves, rows exchanged", sheet(1, BOTH, *SIDES[::-1]), [OFF, ON], 0, 21),
    ("a region gives way, and is taken once it is entered again",
     sheet(1, BOTH, *SIDES, arrow(8, 7, taken(1))), [OFF, ON], 0, 0),
    ("two of equal meeting modes both give way to a third",
     sheet(1, DEEP, arrow(3, 5, on(0)), arrow(2, 5, on(0)), arrow(1, 6, on(0))), [OFF, ON], 0, 21),
    ("three levels, no source within another", sheet(3, LEVELS, *LEAVING), [0, 7], 0, 0),
    ("three levels, the highest not triggered", sheet(3, LEVELS, *LEAVING), [0, 3, 4], 0, 0),
    ("a higher level beside: both are taken",
     sheet(1, [parallel(), serial(0, 3), serial(0, 5), atomic(1), atomic(1), serial(2, 6), atomic(5), atomic(5)],
           arrow(3, 4, on(0)), arrow(6, 7, on(0))), [OFF, ON], 0, 0),
    # restless
    ("there and back on one event", sheet(1, TWO, GO, arrow(2, 1, on(0))), [OFF, ON], 9, 9),
    ("there, back, and there again", sheet(1, regions(2, 2), GO_2, arrow(3, 2, taken(0), on(0)), arrow(5, 6, taken(1))),
     [OFF, ON], 9, 9),
    ("taken again in a later tick", sheet(1, TWO, GO, BACK), [OFF, ON, OFF, ON, OFF], 0, 0),
    ("a mode entered twice in a tick, no transition twice",
     sheet(1, [serial(0, 4), *INNER[1:], atomic()], arrow(4, 2, on(0)), arrow(2, 5, taken(0)), arrow(5, 3, taken(1))),
     [OFF, ON, ON], 0, 0),
    ("taken, triggered again and giving way",
     sheet(1, INNER, arrow(2, 3, on(0)), arrow(3, 2, taken(0)), arrow(1, 4, taken(1))), [OFF, ON, ON], 0, 0),
    ("8 before 9 in one round", sheet(1, regions(2, 3), *RESTLESS, arrow(5, 6, taken(1)), arrow(5, 7, taken(1))),
     [OFF, ON], 8, 8),
    ("9 a round before 8", sheet(1, regions(2, 3, 2), *RESTLESS, arrow(9, 10, taken(1)), arrow(5, 6, taken(2)),
                                 arrow(5, 7, taken(2))), [OFF, ON], 9, 9),
    ("8 a round before 9", sheet(1, regions(2, 3), *RESTLESS, arrow(5, 6, taken(0)), arrow(5, 7, taken(0))),
     [OFF, ON], 8, 8),
    ("twelve rounds", sheet(1, flat(13), arrow(1, 2, on(0)), *[arrow(m, m + 1, taken(m - 2)) for m in range(2, 13)]),
     [OFF, ON, ON], 0, 0),
    # what is exited and entered
    ("a target inside: its parents' first modes are not entered",
     sheet(1, [serial(0, 1), atomic(), serial(0, 3), atomic(2), serial(2, 5), atomic(4), atomic(4)],
           arrow(1, 6, on(0)), arrow(6, 1, off(0)), arrow(3, 1, off(0))), [OFF, ON, OFF], 0, 21),
    ("a target whose first modes are entered down to the last",
     sheet(1, [serial(0, 1), atomic(), serial(0, 4), atomic(2), serial(2, 6), atomic(4), atomic(4)],
           arrow(1, 2, on(0)), arrow(6, 1, off(0))), [OFF, ON, OFF], 0, 0),
    ("a target in a region: the other region is completed",
     sheet(1, [serial(0, 8)] + BOTH[1:], arrow(8, 7, on(0)), arrow(1, 8, off(0)), arrow(6, 7, after(2))),
     [OFF, ON, ON, OFF], 0, 21),
    ("a parallel target within a parallel mode",
     sheet(1, [serial(0, 1), atomic(), parallel(), parallel(2), atomic(2), atomic(3), serial(3, 7)] + [atomic(6)] * 2,
           arrow(1, 2, on(0)), arrow(7, 8, on(0)), arrow(2, 1, off(0))), [OFF, ON, ON, OFF], 0, 0),
    ("a source inside: the whole child of the meeting mode is exited",
     sheet(1, NEST, arrow(3, 6, on(0)), arrow(2, 3, entered(2)), arrow(6, 2, off(0))), [OFF, ON, OFF, ON], 0, 0),
    ("a source deep inside moves in its own parent", sheet(1, DEEP, arrow(3, 4, on(0)), arrow(4, 5, off(0))),
     [OFF, ON, OFF], 0, 0),
    ("two regions enter and leave in one round", sheet(1, regions(2, 2), GO_2, arrow(5, 6, on(0)), arrow(3, 2, off(0)),
                                                       arrow(6, 5, off(0))), [OFF, ON, OFF, ON], 0, 0),
    # high numbers
    ("mode 31", sheet(1, flat(31), arrow(1, 31, on(0)), arrow(31, 2, active(31), off(0)), arrow(2, 30, after(2)),
                      arrow(30, 31, exited(2))), [OFF, ON, OFF, OFF, ON, OFF], 0, 0),
    ("a timer of mode 31", sheet(1, flat(31), arrow(1, 31, on(0)), arrow(31, 2, after(2))), [ON, OFF, ON, ON], 0, 0),
    ("transitions 31 and 32",
     sheet(3, regions(14, 2), *going_round(31, 2, 14), arrow(17, 18, on(0)), arrow(18, 17, off(0))),
     [OFF, ON, OFF], 0, 0),
    ("transitions 62 and 63",
     sheet(3, regions(26, 2), *going_round(62, 2, 26), arrow(29, 30, on(0)), arrow(30, 29, off(0))),
     [OFF, ON, OFF], 0, 0),
    ("transitions 62 and 63 as timers",
     sheet(3, regions(26, 2), *going_round(62, 2, 26), arrow(29, 30, after(2)), arrow(30, 29, after(1))),
     [0] * 6, 0, 0),
    ("transitions 31 and 32 as timers at once",
     sheet(3, regions(14, 2, 2), *going_round(31, 2, 14), arrow(17, 18, after(1)), arrow(20, 21, after(2))),
     [0] * 4, 0, 0),
    ("transition 63 seen taken",
     sheet(3, regions(26, 3), *going_round(61, 2, 26), arrow(30, 31, taken(63)), arrow(31, 29, off(0)),
           arrow(29, 30, on(0))), [OFF, ON], 0, 0),
]


# ---------------------------------------------------------------- compile

def clocks(count, k=0):
    """As many regions, each with a timer that runs from power-on."""
    return sheet(k, regions(*[2] * count), *[arrow(3 * r + 2, 3 * r + 3, after(r + 1)) for r in range(count)])


EXAMPLE = sheet(1, TWO, GO, arrow(2, 1, after(2)))
SEVEN = sheet(2, flat(9), GO, arrow(1, 3, on(1)), *[arrow(2, t, after(1)) for t in range(3, 10)])
UNSURE = sheet(1, THREE, GO, BACK, arrow(2, 3, off(0)))                 # in the block of mode 2
UNSURE_AT_ONCE = sheet(0, THREE, arrow(1, 2, entered(1)), arrow(1, 3, entered(1)))
UNEASY = sheet(1, THREE, GO, arrow(2, 3, off(0)), arrow(3, 2, off(0)))
UNEASY_AT_ONCE = sheet(0, TWO, arrow(1, 2, entered(1)), arrow(2, 1, entered(1)))

NOT_REACHED = sheet(1, THREE, arrow(2, 3, on(0)))
REACHED = sheet(1, THREE, arrow(2, 3, on(0)), arrow(1, 2, off(0)))
APART = sheet(0, regions(3, 2), arrow(2, 3, after(1)), arrow(6, 7, after(1)), arrow(2, 4, taken(1)))
# in a region of three modes: from the first to the second, back, and from the third, which is never entered
SIDE, SIDE_BACK, STUCK = (0, 1, on(0)), (1, 0, off(0)), (2, 0, on(0))


def high(count, *arrows):
    """Two arrows with the numbers `count` and `count` + 1."""
    size = 14 if count < 40 else 26
    return sheet(3, regions(size, 3), *going_round(count, 2, size),
                 *[arrow(size + 3 + s, size + 3 + t, term) for s, t, term in arrows])


def many(*arrows):
    """384 sets: a region whose first mode is left at power-on, and rings of 4, 4, 4 and 6, each moved by an event."""
    rings = [(5, 4), (10, 4), (15, 4), (20, 6)]
    return sheet(4, regions(2, 4, 4, 4, 6), arrow(2, 3, after(0)),
                 *[arrow(first + i, first + (i + 1) % size, off(event) if i % 2 else on(event))
                   for event, (first, size) in enumerate(rings) for i in range(size)], *arrows)


# a name, the refusal, the sheet, table words, work-list words
COMPILES = [
    ("table words as many as the table has", 0, EXAMPLE, 69, 2),
    ("one table word less", 10, EXAMPLE, 68, 2),
    ("one table word more", 0, EXAMPLE, 70, 3),
    ("no table word", 10, EXAMPLE, 0, 2),
    ("one work-list word less", 11, EXAMPLE, 69, 1),
    ("no work-list word", 11, EXAMPLE, 69, 0),
    ("11 before 10", 11, EXAMPLE, 0, 1),
    ("six timers", 0, clocks(6), 6000, 64),
    ("seven timers at power-on", 7, clocks(7), 6000, 64),
    ("seven timers at power-on, no table word", 7, clocks(7), 0, 1),
    ("seven timers at power-on, no work-list word", 11, clocks(7), 6000, 0),
    ("7 when the set is listed: a later cell of the block is ambiguous", 7, SEVEN, 500, 2),
    ("11 before 7: no place for the set of seven timers", 11, SEVEN, 500, 1),
    ("8 in a later block than 0", 8, UNSURE, 100, 8),
    ("8 before 10", 8, UNSURE, 0, 8),
    ("8 before 11", 8, UNSURE_AT_ONCE, 0, 0),
    ("11 in an earlier cell than 8", 11, UNSURE, 100, 0),
    ("9 in a later block than 0", 9, UNEASY, 100, 8),
    ("9 before 10", 9, UNEASY, 0, 8),
    ("9 before 11", 9, UNEASY_AT_ONCE, 0, 0),
    ("11 in an earlier cell than 9", 11, UNEASY, 100, 0),
    # an arrow that no cell takes
    ("idle: its source is never reached", 21, NOT_REACHED, 100, 8),
    ("idle, and no table word: 21 before 10", 21, NOT_REACHED, 0, 8),
    ("idle, and as many work-list words as sets", 21, NOT_REACHED, 100, 1),
    ("11 before 21", 11, NOT_REACHED, 100, 0),
    ("none is idle, and no table word", 10, REACHED, 0, 8),
    ("idle: it always gives way", 21, sheet(1, INNER, *GIVING), 100, 8),
    ("idle: its term never holds", 21, sheet(1, TWO, GO, arrow(2, 1, taken(1))), 100, 8),
    ("idle: the first of three", 21, sheet(1, THREE, arrow(3, 1, on(0)), GO, BACK), 100, 8),
    ("idle: the second of three", 21, sheet(1, THREE, GO, arrow(3, 1, on(0)), BACK), 100, 8),
    ("idle: the last of three", 21, sheet(1, THREE, GO, BACK, arrow(3, 1, on(0))), 100, 8),
    ("idle: two of three", 21, sheet(1, THREE, arrow(3, 1, on(0)), GO, arrow(3, 2, off(0))), 100, 8),
    ("idle: transition 31", 21, high(31, STUCK, SIDE), 6000, 64),
    ("idle: transition 32", 21, high(31, SIDE, STUCK), 6000, 64),
    ("idle: transition 62", 21, high(62, STUCK, SIDE), 6000, 64),
    ("idle: transition 63", 21, high(62, SIDE, STUCK), 6000, 64),
    ("64 transitions, none idle", 0, high(62, SIDE, SIDE_BACK), 6000, 64),
    ("taken at power-on alone", 0, sheet(0, TWO, arrow(1, 2, after(0))), 100, 8),
    ("taken in the first tick alone, on an event", 0, sheet(1, THREE, arrow(1, 2, entered(0), on(0)),
                                                           arrow(1, 3, entered(0), off(0))), 100, 8),
    ("taken in the last block alone", 0, sheet(1, THREE, GO, arrow(2, 3, off(0)), arrow(3, 2, on(0))), 200, 8),
    ("taken in the first blocks alone", 0, sheet(1, THREE, GO, arrow(2, 3, off(0))), 200, 8),
    ("taken in a round that is not the last", 0, sheet(1, THREE, GO, arrow(2, 3, taken(0))), 100, 8),
    ("taken where one of two timers is due alone, which no clock brings", 0, APART, 300, 8),
    ("384 sets, an arrow taken at power-on alone, no table word", 10, many(), 0, 384),
    ("384 sets, an arrow that waits for itself", 21, many(arrow(3, 2, taken(19))), 0, 384),
    ("7 before 21", 7, sheet(0, regions(*[2] * 7, 2), *[arrow(3 * r + 2, 3 * r + 3, after(1)) for r in range(7)],
                             arrow(24, 23, entered(23))), 0, 8),
    ("8 before 21", 8, sheet(1, [*THREE, atomic()], GO, BACK, arrow(2, 3, off(0)), arrow(4, 1, on(0))), 0, 8),
    ("9 before 21", 9,
     sheet(1, [*THREE, atomic()], GO, arrow(2, 3, off(0)), arrow(3, 2, off(0)), arrow(4, 1, on(0))), 0, 8),
    ("no arrow", 0, sheet(0, TWO), 100, 8),
]


def counter(blocked):
    """Six rings of four modes: 4,096 sets, or one less. Input set r moves ring r on from place 0 or 2, input set 6 all
    rings from places 1 and 3."""
    first = [5 * r + 2 for r in range(6)]
    code = [[on(e) if c >> e & 1 else off(e) for e in range(3)] for c in range(8)]
    arrows = []
    for r in range(6):
        for i in range(4):
            arrows.append(arrow(first[r] + i, first[r] + (i + 1) % 4, *code[6 if i % 2 else r]))
    if blocked:                         # ring 0 never stands at 3 with all others at 2
        arrows[2] += active(*[first[r] + i for r in range(1, 6) for i in (0, 1, 3)])
    return sheet(3, regions(*[4] * 6), *arrows)


# the interpreter takes seconds for each of these
LARGE_COMPILES = [
    ("4,095 sets", 10, counter(True), 65536, 4096),
    ("4,096 sets", 11, counter(False), 65536, 4096),
]


# ---------------------------------------------------------------- delays in milliseconds

# a name, the refusal, the tick length, the delays, the result words
CONVERSIONS = [
    ("no delay and no word", 0, 100, [], 0),
    ("no delay, words left as they are", 0, 100, [], 3),
    ("no delay, a tick length of 0", 20, 0, [], 0),
    ("two words for a delay", 0, 100, [250], 2),
    ("one word for a delay", 12, 100, [250], 1),
    ("no word for a delay", 12, 100, [250], 0),
    ("a word more", 0, 100, [250], 3),
    ("three words for two delays", 12, 100, [250, 70], 3),
    ("four words for two delays", 0, 100, [250, 70], 4),
    ("12 and a tick length of 0", 12, 0, [250], 1),
    ("12 and too many ticks", 12, 1, [65536], 1),
    ("a tick length of 0", 20, 0, [250], 2),
    ("a delay of 0", 0, 100, [0], 2),
    ("a delay of a tick less 1, a tick, a tick and 1", 0, 100, [99, 100, 101], 6),
    ("a multiple of the tick, and 1 less", 0, 250, [1000, 999], 4),
    ("a tick of 1: 65,535 ticks", 0, 1, [65535], 2),
    ("a tick of 1: 65,536 ticks", 20, 1, [65536], 2),
    ("65,535 ticks and the largest rest", 0, 10, [655359], 2),
    ("65,536 ticks", 20, 10, [655360], 2),
    ("65,536 ticks in the last place", 20, 10, [5, 70, 655360], 6),
    ("65,536 ticks in the middle", 20, 10, [5, 655360, 70], 6),
    ("65,536 ticks in the first place", 20, 10, [655360, 5, 70], 6),
    ("65,535 ticks in all places", 0, 10, [655359, 655350, 655355], 6),
    ("a delay of 2^32 - 1 and 65,535 ticks", 0, 65536, [TOP], 2),
    ("a delay of 2^32 - 1 and 65,537 ticks", 20, 65535, [TOP], 2),
    ("a tick of 2^31", 0, 2 ** 31, [TOP, 2 ** 31, 2 ** 31 - 1], 6),
    ("a tick of 2^32 - 1", 0, TOP, [TOP, TOP - 1], 4),
]


# ---------------------------------------------------------------- the alternatives that fired

# an arrow of eight alternatives, the last two by where the other region stands
EIGHT = sheet(6, regions(2, 3), arrow(2, 3, on(0), OR, on(1), OR, on(2), OR, on(3), OR, on(4), OR, on(5), OR, active(6),
                                      OR, active(7)))
AT_5, AT_6, AT_7 = [(mask(0, 1, 2, 4, m), {}) for m in (5, 6, 7)]
# 64 arrows, all timers but 31, 32 and 63, which leave the modes 4, 5 and 9
MANY = sheet(1, flat(9), *[arrow(t // 8 + 1, [m for m in range(1, 10) if m != t // 8 + 1][t % 8],
                                 on(0) if t in (31, 32) else after(9)) for t in range(63)], arrow(9, 1, on(0)))

# a name, the refusal, the sheet, the state, the input sets
FIRED = [
    *[(f"alternative {e + 1} of eight alone", 0, EIGHT, AT_5, [1 << e]) for e in range(6)],
    ("alternative 7 of eight alone", 0, EIGHT, AT_6, [0]),
    ("alternative 8 of eight alone", 0, EIGHT, AT_7, [0]),
    ("none of eight alternatives", 0, EIGHT, AT_5, [0]),
    *[(f"several alternatives hold, the lowest is {e}", 0, EIGHT, at, [given])
      for e, at, given in ((1, AT_5, 63), (2, AT_5, 62), (3, AT_6, 36), (5, AT_5, 48), (6, AT_7, 32))],
    ("two terms of an alternative, then another", 0,
     sheet(2, TWO, arrow(1, 2, on(0), on(1), OR, off(1), on(0)), arrow(2, 1, after(1))), FRESH, [3, 0, 1, 0, 3]),
    ("one alternative of several terms", 0, sheet(2, TWO, arrow(1, 2, on(0), on(1)), arrow(2, 1, off(0), off(1))),
     FRESH, [3, 0, 3, 1, 2]),
    ("a lower alternative holds in the round after", 0,
     sheet(1, regions(2, 2), arrow(2, 3, entered(6), OR, on(0)), arrow(5, 6, on(0)), arrow(3, 2, off(0)),
           arrow(6, 5, off(0))), FRESH, [0, 1, 0, 1]),
    ("a lower alternative holds two rounds after", 0,
     sheet(1, regions(2, 2, 2), arrow(2, 3, taken(2), OR, on(0)), arrow(5, 6, on(0)), arrow(8, 9, entered(6))),
     FRESH, [0, 1]),
    ("each round has its own alternative", 0,
     sheet(1, regions(2, 2, 2), arrow(2, 3, on(0)), arrow(5, 6, exited(8), OR, entered(3)),
           arrow(8, 9, exited(5), off(0), OR, taken(1), OR, entered(6))), FRESH, [0, 1]),
    ("taken in the second round by what the first did", 0,
     sheet(1, regions(2, 2), arrow(2, 3, on(0)), arrow(5, 6, off(0), OR, entered(6), OR, exited(2))), FRESH, [1, 1]),
    ("gives way by the second alternative, taken by the first", 0,
     sheet(1, BOTH, arrow(3, 4, entered(8), OR, on(0)), arrow(6, 8, on(0)), arrow(8, 7, taken(1))), FRESH, [0, 1]),
    ("active as the round began", 0,
     sheet(1, regions(2, 2), arrow(2, 3, active(6), OR, on(0)), arrow(5, 6, on(0)), arrow(6, 5, off(0))),
     FRESH, [0, 1, 0]),
    ("a delay of 0, a timer, and terms", 0,
     sheet(1, regions(2, 3, 2), arrow(2, 3, on(0)), arrow(3, 2, after(2)), arrow(5, 6, after(1)), arrow(6, 7, after(0)),
           arrow(7, 5, after(3)), arrow(9, 10, on(0), OR, off(0))), FRESH, [0, 0, 1, 0, 0, 1, 0]),
    ("transition 31", 0, MANY, (mask(0, 4), {t: 9 for t in range(24, 31)}), [1, 0]),
    ("transition 32", 0, MANY, (mask(0, 5), {t: 9 for t in range(33, 40)}), [1, 0]),
    ("transition 63", 0, MANY, (mask(0, 9), {}), [1, 0]),
    ("no transition is taken", 0, sheet(1, TWO, GO), FRESH, [0, 0, 0]),
    ("no transition", 0, sheet(1, TWO), FRESH, [1, 0]),
    ("the third set has a bit at k", 13, sheet(1, TWO, GO, BACK), FRESH, [0, 1, 2, 0]),
    ("the second tick is ambiguous", 8, sheet(1, THREE, GO, arrow(1, 3, on(0))), FRESH, [0, 1, 0]),
    ("the second tick is restless in its third round", 9,
     sheet(1, regions(2, 2), arrow(2, 3, on(0)), arrow(3, 2, taken(0)), arrow(5, 6, on(0))), FRESH, [0, 1, 0]),
]

# a name, the refusal, the state, the input sets, the output words, the numbers; on CLOCKS
NUMBERED = [
    ("no input set, no word, no number", 0, GOOD, [], 0, 0),
    ("no input set, numbers left as they are", 0, GOOD, [], 0, 9),
    ("64 numbers a set", 0, GOOD, [0, 1], 10, 128),
    ("one number less", 12, GOOD, [0, 1], 10, 127),
    ("one number more", 0, GOOD, [0, 1], 10, 129),
    ("one output word less", 12, GOOD, [0, 1], 9, 128),
    ("one of each less", 12, GOOD, [0, 1], 9, 127),
    ("one output word less, numbers for a set more", 12, GOOD, [0, 1], 9, 192),
    ("one number less, words for a set more", 12, GOOD, [0, 1], 15, 127),
    ("no number", 12, GOOD, [0], 5, 0),
    ("63 numbers", 12, GOOD, [0], 5, 63),
    ("14 and too few numbers", 14, BAD, [0], 5, 63),
    ("too few numbers and 13", 12, GOOD, [2], 5, 63),
    ("too few numbers for a set after 13", 12, GOOD, [2, 0], 10, 64),
    ("13 in the second tick", 13, GOOD, [0, 2], 10, 128),
]


# ---------------------------------------------------------------- why a transition stayed put

NEVER_ACTIVE, NEVER_TRIGGERED = "0 0", "0 1"


def gave_way_to(transition):
    return f"0 2 {transition}"


def taken_in(rnd, alternative):
    """Taken in this round by this alternative, 9 for a delay."""
    return f"0 3 {rnd} {alternative}"


def numbered(arrows, order):
    """The arrows in this order of their names; each is made from the numbers of all."""
    number = {name: at for at, name in enumerate(order)}
    return [arrows[name](number) for name in order]


def gives_way_twice(order):
    """3 -> 4 gives way to u in round 1, to v in round 3, and is never taken; w goes back in between."""
    arrows = {"t": lambda of: arrow(3, 4, on(0)), "u": lambda of: arrow(6, 8, on(0)),
              "w": lambda of: arrow(8, 7, taken(of["u"])), "v": lambda of: arrow(7, 9, taken(of["w"]))}
    return sheet(1, [*BOTH, atomic()], *numbered(arrows, order))


def gives_way_to_two(order):
    """3 -> 4 gives way to the due timers a, which gives way itself, and u in round 1, to v in round 3."""
    arrows = {"t": lambda of: arrow(3, 4, on(0)), "a": lambda of: arrow(2, 5, after(1)),
              "u": lambda of: arrow(1, 6, after(1)), "w": lambda of: arrow(6, 1, after(0)),
              "v": lambda of: arrow(1, 7, taken(of["w"]))}
    return sheet(1, [*DEEP, atomic()], *numbered(arrows, order))


def due(order):
    """The timers a and u of gives_way_to_two at reading 1."""
    return mask(0, 1, 2, 3), {order.index("a"): 1, order.index("u"): 1}


def tour(leaves):
    """The leaves of a tree in the order in which they are left, each once on every level, the lowest level first; what is
    entered is the next one, at the end the first again."""
    if len(leaves) == 1:
        return []
    left, right = leaves[:len(leaves) // 2], leaves[len(leaves) // 2:]
    return tour(left) + left[:1] + tour(right) + right[:1] + sum(map(list, zip(left[1:], right[1:])), [])


def rounds_64(order):
    """32 modes, 64 transitions and as many rounds. Modes 15 to 30 are the leaves of a tree of serial modes; the transition of
    round r + 1 has the number order[r] and is taken by its alternative r % 8 + 1. A leaf that is entered again triggers what
    was taken from it before, and that gives way."""
    modes = [serial((m - 1) // 2 if m else 0, 2 * m + 1) for m in range(15)]
    modes += [atomic((m - 1) // 2) for m in range(15, 31)] + [atomic()]
    path, arrows = tour(list(range(15, 31))) + [31], [None] * 64
    for r, number in enumerate(order):
        term = taken(order[r - 1]) if r else on(0)
        arrows[number] = arrow(path[r], path[r + 1], *[exited(0), OR] * (r % 8), term)
    return sheet(1, modes, *arrows)


# the numbers of six transitions, by their event, and the level of each; level 0 is the highest
HIGH, AT_LEVEL = [0, 1, 31, 32, 62, 63], [3, 7, 0, 9, 5, 1]


def levels_15():
    """32 modes: each serial one has the next one and an atomic one within it. 33 on level 10 and 5 on level 12 are triggered
    on every input set, those of HIGH on their events, the others never."""
    modes = [serial(0, 1)]
    for i in range(15):
        modes += [serial(max(2 * i - 1, 0), 2 * i + 3), atomic(max(2 * i - 1, 0))]
    triggered = {33: (10, active(0)), 5: (12, active(0))}
    triggered |= {number: (level, on(event)) for event, (number, level) in enumerate(zip(HIGH, AT_LEVEL))}
    others = [(2 * i, 2 * j) for i in range(1, 16) for j in range(1, 16) if i != j]
    arrows = []
    for number in range(64):
        if number in triggered:
            level, term = triggered[number]
            arrows.append(arrow(2 * level + 1, 2 * level + 2, term))
        else:
            arrows.append(arrow(*others[number], taken(number)))
    return sheet(6, [*modes, atomic(29)], *arrows)


AT_START = (START, {0: 4, 2: 2})        # of CLOCKS
DUE = (mask(0, 2), {1: 1}, {2: 1})      # of EXAMPLE
PASSING = [GO, arrow(2, 3, taken(0)), arrow(2, 1, entered(3))]
AGAIN = [arrow(2, 3, on(0)), arrow(1, 4, after(1)), arrow(4, 1, after(0))]
THREE_LEVELS = [arrow(3, 4, on(0)), arrow(2, 5, on(0)), arrow(1, 6, on(0))]

# sheets, and of each: a name, the answer, the state, the input set, the transition
REASONS = [
    (EXAMPLE, [
        # the transition's number
        ("transition T - 1", NEVER_ACTIVE, FRESH, 0, 1),
        *[(f"16: transition {t}", 16, FRESH, 0, t) for t in (2, 3, 31, 32, 33, 63, 64, 65, 2 ** 31, TOP - 1, TOP)],
        # whether the source was active
        ("never active", NEVER_ACTIVE, (mask(0, 1), {}), 0, 1),
        ("entered by the last round: active", NEVER_TRIGGERED, (mask(0, 1), {}), 1, 1),
        ("entered by the last round of power-on: active", NEVER_TRIGGERED, FRESH, 1, 1),
        ("an event that is absent", NEVER_TRIGGERED, FRESH, 0, 0),
        ("taken at power-on", taken_in(1, 1), FRESH, 1, 0),
        ("left by the last round, taken", taken_in(1, 1), (mask(0, 1), {}), 1, 0),
        ("entered by a due timer, then taken on the event", taken_in(2, 1), DUE, 1, 0),
        ("reading 2", NEVER_TRIGGERED, (mask(0, 2), {1: 2}), 1, 1),
        ("reading 1", taken_in(1, 9), DUE, 0, 1),
        ("a reading of 0", 14, (mask(0, 2), {}, {2: 2}), 0, 1),
        ("a reading of its delay + 1", 14, (mask(0, 2), {1: 3}), 0, 1),
        ("reading 1, the source of the other is entered", NEVER_TRIGGERED, DUE, 0, 0)]),
    (CLOCKS, [
        # the order of the refusals
        ("14 before 16", 14, (START, {0: 5, 2: 2}), 0, 4),
        ("14 before 13", 14, (START, {0: 5, 2: 2}), 2, 0),
        ("14 before 16 and 13", 14, (START, {0: 5, 2: 2}), 2, 4),
        ("fresh with a reading: 14 before 16", 14, (0, {0: 1}), 0, TOP),
        ("16 alone", 16, AT_START, 0, 4),
        ("16 before 13", 16, AT_START, 2, 4),
        ("fresh: 16 before 13", 16, FRESH, TOP, TOP),
        ("13: a bit at k", 13, AT_START, 2, 0),
        ("13: bits at k - 1 and k", 13, AT_START, 3, 0),
        ("13: bit 31", 13, AT_START, 2 ** 31, 3),
        ("13 where the source is not active", 13, AT_START, 2, 1),
        ("fresh: 13", 13, FRESH, 2, 0),
        # readings
        ("a timer at its delay", NEVER_TRIGGERED, AT_START, 0, 0),
        ("a timer at reading 2", NEVER_TRIGGERED, (START, {0: 2, 2: 1}, {2: 2, 5: 1}), 0, 0),
        ("a timer at reading 1", taken_in(1, 9), (START, {0: 1, 2: 2}, {2: 3}), 0, 0),
        ("the other timer is due", taken_in(1, 9), (START, {0: 2, 2: 1}, {2: 2, 5: 1}), 0, 2),
        ("a delay of 0 that a due timer leads to", taken_in(2, 9), (START, {0: 2, 2: 1}, {2: 2, 5: 1}), 0, 3),
        ("a delay of 0, its source is not active", NEVER_ACTIVE, AT_START, 0, 3),
        ("a delay of 0 from a set that no run reaches", taken_in(1, 9), (mask(0, 1, 2, 4, 6), {0: 4}), 0, 3),
        ("a timer that starts again in this tick", NEVER_TRIGGERED, (mask(0, 1, 2, 4, 6), {0: 4}), 0, 2),
        ("in one of two regions: entered by a due timer, then taken on the event", taken_in(2, 1),
         (START, {0: 1, 2: 2}, {2: 3}), 1, 1),
        ("a timer at power-on", NEVER_TRIGGERED, FRESH, 0, 0),
        ("not entered at power-on", NEVER_ACTIVE, FRESH, 1, 1)]),
    (sheet(1, TWO), [(f"no transition: {t}", 16, FRESH, 0, t) for t in (0, 1, 63, 64, TOP)]
        + [("no transition, 14 before 16", 14, (mask(0, 3), {}), 0, 0), ("no transition, 16 before 13", 16, FRESH, 2, 0)]),
    (sheet(0, [atomic()]), [("one mode and no transition", 16, (1, {}), 0, 0)]),
    (sheet(1, TWO, GO), [("one transition: 0", taken_in(1, 1), FRESH, 1, 0), ("one transition: 1", 16, FRESH, 1, 1)]),
    # refused ticks
    (sheet(1, THREE, GO, arrow(1, 3, on(0)), arrow(3, 1, off(0))), [
        ("8: one of the two", 8, FRESH, 1, 0),
        ("8: the other of the two", 8, FRESH, 1, 1),
        ("8: its source is not active", 8, FRESH, 1, 2),
        ("14 before 8", 14, (0, {0: 1}), 1, 0),
        ("16 before 8", 16, FRESH, 1, 3),
        ("13 before 8", 13, FRESH, 3, 0),
        ("no 8 on the other input set", NEVER_TRIGGERED, FRESH, 0, 0)]),
    (sheet(1, TWO, GO, arrow(2, 1, on(0))), [
        ("9: taken in round 1", 9, FRESH, 1, 0),
        ("9: taken in round 2", 9, FRESH, 1, 1),
        ("14 before 9", 14, (mask(0), {}), 1, 0),
        ("16 before 9", 16, FRESH, 1, 2),
        ("13 before 9", 13, FRESH, 3, 1),
        ("no 9 on the other input set", NEVER_ACTIVE, FRESH, 0, 1)]),
    (sheet(1, regions(2, 4), GO_2, arrow(5, 6, taken(0)), arrow(5, 7, taken(0)), arrow(8, 5, on(0)), arrow(3, 2, off(0))), [
        ("8 in round 2: taken in round 1", 8, FRESH, 1, 0),
        ("8 in round 2: never active", 8, FRESH, 1, 3),
        ("8 in round 2: active and never triggered", 8, FRESH, 1, 4),
        ("8 in round 2: not on the other input set", NEVER_ACTIVE, FRESH, 0, 3)]),
    (sheet(1, regions(2, 3), *RESTLESS, arrow(5, 6, on(0)), arrow(7, 5, on(0))), [
        ("9 in round 3: another region's, taken in round 1", 9, FRESH, 1, 2),
        ("9 in round 3: never active", 9, FRESH, 1, 3)]),
    (sheet(1, BOTH, *SIDES, arrow(8, 6, taken(1)), arrow(7, 6, off(0))), [
        ("9: gave way in round 1", 9, FRESH, 1, 0),
        ("9: never active", 9, FRESH, 1, 3)]),
    (UNSURE_AT_ONCE, [("8 at power-on", 8, FRESH, 0, 0), ("8 at power-on only", NEVER_ACTIVE, (mask(0, 2), {}), 0, 1)]),
    (UNEASY_AT_ONCE, [("9 at power-on", 9, FRESH, 0, 0), ("9 at power-on only", NEVER_TRIGGERED, (mask(0, 1), {}), 0, 0)]),
    # whether the source was active in the tick
    (sheet(1, THREE, *PASSING, arrow(1, 3, taken(1)), arrow(3, 1, exited(1), off(0))), [
        ("passed through, never triggered", NEVER_TRIGGERED, FRESH, 1, 2),
        ("passed through, taken", taken_in(2, 1), FRESH, 1, 1),
        ("active as the tick began alone, its terms hold once it is left", NEVER_TRIGGERED, FRESH, 1, 3),
        ("active as the tick began alone, taken", taken_in(1, 1), (mask(0, 1), {}), 1, 0),
        ("entered by the last round, one of two terms holds", NEVER_TRIGGERED, FRESH, 1, 4),
        ("not passed through", NEVER_ACTIVE, FRESH, 0, 2),
        ("active as the tick began, in a tick without a round", NEVER_TRIGGERED, (mask(0, 2), {}), 1, 1)]),
    (sheet(1, NEST, arrow(2, 6, on(0)), arrow(1, 4, off(0), on(0)), arrow(3, 2, on(0)), arrow(5, 3, on(0)),
           arrow(4, 1, off(0), on(0)), arrow(6, 5, off(0))), [
        ("a serial source that is left", NEVER_TRIGGERED, FRESH, 1, 1),
        ("a serial source that is entered with its target inside", NEVER_TRIGGERED, FRESH, 1, 4),
        ("a mode of it that is not passed", NEVER_ACTIVE, FRESH, 1, 2),
        ("the first mode of the target's parent", NEVER_ACTIVE, FRESH, 1, 3),
        ("the target", NEVER_TRIGGERED, FRESH, 1, 5),
        ("within a mode that is not active", NEVER_ACTIVE, FRESH, 0, 3)]),
    (sheet(1, INNER, arrow(1, 4, on(0)), arrow(2, 3, taken(0)), arrow(4, 2, taken(0), off(0)), arrow(3, 2, off(0))), [
        ("left with the mode that holds it", NEVER_TRIGGERED, FRESH, 1, 1),
        ("entered from outside, never triggered", NEVER_TRIGGERED, FRESH, 1, 2),
        ("not the first mode, on an event's absence", NEVER_ACTIVE, FRESH, 0, 3)]),
    (sheet(0, regions(2, 3), arrow(2, 3, entered(2)), arrow(5, 6, after(0)), arrow(6, 7, after(1)), arrow(7, 5, after(0))), [
        ("power-on: entered", taken_in(1, 1), FRESH, 0, 0),
        ("power-on: a delay of 0", taken_in(1, 9), FRESH, 0, 1),
        ("power-on: a timer entered by a delay of 0", NEVER_TRIGGERED, FRESH, 0, 2),
        ("power-on: a delay of 0, not entered", NEVER_ACTIVE, FRESH, 0, 3),
        ("k = 0: 13", 13, FRESH, 1, 0),
        ("k = 0: a timer and two delays of 0", taken_in(1, 9), (mask(0, 1, 3, 4, 6), {2: 1}), 0, 2),
        ("k = 0: the first delay of 0", taken_in(2, 9), (mask(0, 1, 3, 4, 6), {2: 1}), 0, 3),
        ("k = 0: the second delay of 0", taken_in(3, 9), (mask(0, 1, 3, 4, 6), {2: 1}), 0, 1),
        ("k = 0: entered in an earlier tick", NEVER_TRIGGERED, (mask(0, 1, 2, 4, 6), {2: 1}), 0, 0)]),
    # rounds and alternatives
    (sheet(1, flat(13), arrow(1, 2, on(0)), *[arrow(m, m + 1, taken(m - 2)) for m in range(2, 13)]),
     [(f"round {t + 1} of twelve", taken_in(t + 1, 1), FRESH, 1, t) for t in range(12)]),
    (EIGHT, [
        *[(f"alternative {e + 1} of eight", taken_in(1, e + 1), AT_5, 1 << e, 0) for e in range(6)],
        ("alternative 7 of eight", taken_in(1, 7), AT_6, 0, 0),
        ("alternative 8 of eight", taken_in(1, 8), AT_7, 0, 0),
        ("none of eight", NEVER_TRIGGERED, AT_5, 0, 0),
        ("the lowest of eight", taken_in(1, 1), AT_7, 63, 0),
        ("the lowest of three", taken_in(1, 3), AT_6, 36, 0),
        ("k = 6: bit 6", 13, AT_5, 64, 0), ("k = 6: bit 31", 13, AT_5, 2 ** 31, 0), ("k = 6: all bits", 13, AT_5, TOP, 0)]),
    (sheet(1, regions(2, 2), arrow(2, 3, entered(6), OR, on(0)), arrow(5, 6, on(0)), arrow(3, 2, off(0))), [
        ("a lower alternative would hold a round later", taken_in(1, 2), FRESH, 1, 0)]),
    (sheet(1, regions(2, 2, 2), arrow(2, 3, on(0)), arrow(5, 6, exited(8), OR, entered(3)),
           arrow(8, 9, exited(5), off(0), OR, taken(1), OR, entered(6))), [
        ("each round has its own alternative: the first", taken_in(1, 1), FRESH, 1, 0),
        ("each round has its own alternative: the second", taken_in(2, 2), FRESH, 1, 1),
        ("each round has its own alternative: the third", taken_in(3, 2), FRESH, 1, 2)]),
    # giving way
    (sheet(1, DEEP, *THREE_LEVELS), [
        ("gave way to two, the lower one gives way itself", gave_way_to(1), FRESH, 1, 0),
        ("gave way to the one above", gave_way_to(2), FRESH, 1, 1),
        ("the highest of three levels", taken_in(1, 1), FRESH, 1, 2),
        ("three levels, no event", NEVER_TRIGGERED, FRESH, 0, 0)]),
    (sheet(1, DEEP, *THREE_LEVELS[::-1]), [
        ("gave way to two, the lower one is taken", gave_way_to(0), FRESH, 1, 2),
        ("gave way to the one above, rows exchanged", gave_way_to(0), FRESH, 1, 1)]),
    (sheet(1, DEEP, THREE_LEVELS[1], THREE_LEVELS[0], THREE_LEVELS[2]), [
        ("gave way to two, one lower than itself, which gives way", gave_way_to(0), FRESH, 1, 1),
        ("the one of them that gives way", gave_way_to(2), FRESH, 1, 0)]),
    (sheet(1, DEEP, arrow(3, 5, on(0)), arrow(2, 5, on(0)), arrow(3, 4, on(0)), arrow(1, 6, on(0))), [
        ("two of equal meeting modes, both give way: the first", gave_way_to(3), FRESH, 1, 0),
        ("two of equal meeting modes, both give way: the second", gave_way_to(3), FRESH, 1, 1),
        ("gave way to the lower of two of equal meeting modes", gave_way_to(0), FRESH, 1, 2)]),
    (sheet(2, DEEP, arrow(2, 5, on(1)), *THREE_LEVELS[::2]), [
        ("one above that is not triggered has a lower number", gave_way_to(2), FRESH, 1, 1),
        ("one above that is triggered has a lower number", gave_way_to(0), FRESH, 3, 1),
        ("one above alone", taken_in(1, 1), FRESH, 2, 0)]),
    (sheet(1, [parallel(), serial(0, 3), serial(0, 5), *[atomic(1)] * 2, serial(2, 6), *[atomic(5)] * 2, atomic(2)],
           arrow(3, 4, on(0)), arrow(6, 7, on(0)), arrow(5, 8, on(0))), [
        ("a higher level beside is taken, and so is it", taken_in(1, 1), FRESH, 1, 0),
        ("gave way in its own region, another region's has a lower number", gave_way_to(2), FRESH, 1, 1)]),
    (sheet(1, BOTH, *SIDES), [
        ("gave way to another region's that leaves", gave_way_to(1), FRESH, 1, 0),
        ("the other region's leaves", taken_in(1, 1), FRESH, 1, 1)]),
    (sheet(1, DEEP, arrow(3, 6, on(0)), arrow(2, 5, on(0))), [
        ("the outer source gave way to the inner one", gave_way_to(0), FRESH, 1, 1),
        ("the inner source is taken", taken_in(1, 1), FRESH, 1, 0)]),
    (sheet(0, INNER, arrow(2, 3, after(2)), arrow(1, 4, after(2)), arrow(4, 1, taken(1))), [
        ("a due timer gave way, its source is entered again", gave_way_to(1), (mask(0, 1, 2), {0: 1, 1: 1}, {1: 1, 2: 1}), 0, 0),
        ("a due timer, the one above is not due", taken_in(1, 9), (mask(0, 1, 2), {0: 1, 1: 2}, {2: 1}), 0, 0),
        ("a timer that is not due, the one above is", NEVER_TRIGGERED, (mask(0, 1, 2), {0: 2, 1: 1}, {1: 1}), 0, 0),
        ("the one above is due", taken_in(1, 9), (mask(0, 1, 2), {0: 1, 1: 1}, {1: 1, 2: 1}), 0, 1)]),
    (sheet(1, INNER, arrow(4, 1, on(0)), arrow(2, 3, taken(0)), arrow(1, 4, off(0), OR, entered(1))), [
        ("9: passed through", 9, (mask(0, 4), {}), 1, 1)]),
    (sheet(1, [*INNER, atomic()], arrow(4, 1, on(0)), arrow(2, 3, taken(0)), arrow(1, 5, off(0), OR, entered(1))), [
        ("passed through, gave way there", gave_way_to(2), (mask(0, 4), {}), 1, 1),
        ("passed through, taken there", taken_in(2, 2), (mask(0, 4), {}), 1, 2)]),
    # giving way in several rounds, giving way and being taken
    *[(gives_way_twice(order), [(name, gave_way_to(order.index("u")), FRESH, 1, order.index("t"))])
      for name, order in (("gave way twice, first to the lower", "tuvw"), ("gave way twice, first to the higher", "tvuw"),
                          ("gave way twice, first to the lower, itself the highest", "uvwt"),
                          ("gave way twice, first to the higher, itself the highest", "vuwt"),
                          ("gave way twice, first to the lower, itself in between", "utwv"),
                          ("gave way twice, first to the higher, itself in between", "vtwu"))],
    *[(gives_way_to_two(order), [(name, gave_way_to(order.index(to)), due(order), 1, order.index("t"))])
      for name, order, to in (("gave way to two, then to one: the lowest of all first", "atuwv", "a"),
                              ("gave way to two, then to one: the lowest of all last", "vtauw", "a"),
                              ("gave way to two, then to one: the lowest of all last, the one taken next", "vtuaw", "u"),
                              ("gave way to two, then to one: the lowest of all last, itself the highest", "vwuat", "u"))],
    (sheet(1, INNER, *AGAIN), [
        ("gave way, then taken in round 3", taken_in(3, 1), (mask(0, 1, 2), {1: 1}), 1, 0),
        ("the one that it gave way to", taken_in(1, 9), (mask(0, 1, 2), {1: 1}), 1, 1),
        ("a delay of 0 in round 2", taken_in(2, 9), (mask(0, 1, 2), {1: 1}), 1, 2)]),
    (sheet(1, BOTH, arrow(3, 4, entered(8), OR, on(0)), arrow(6, 8, on(0)), arrow(8, 7, taken(1))), [
        ("gave way by alternative 2, then taken by alternative 1", taken_in(3, 1), FRESH, 1, 0)]),
    (sheet(1, BOTH, arrow(3, 4, entered(2), off(0), OR, taken(2), OR, on(0)), arrow(6, 8, on(0)), arrow(8, 7, taken(1))), [
        ("gave way by alternative 3, then taken by alternative 2", taken_in(3, 2), FRESH, 1, 0)]),
    (sheet(1, INNER, arrow(2, 3, exited(3), OR, on(0)), arrow(3, 2, taken(0)), arrow(1, 4, taken(1))), [
        ("taken by alternative 2, then gave way by alternative 1", taken_in(1, 2), FRESH, 1, 0),
        ("taken in between", taken_in(2, 1), FRESH, 1, 1)]),
    (sheet(1, [*BOTH, atomic()], arrow(3, 4, on(0)), arrow(6, 8, on(0)), arrow(8, 7, taken(1)), arrow(4, 3, taken(0)),
           arrow(7, 9, taken(3))), [
        ("gave way, taken, gave way again", taken_in(3, 1), FRESH, 1, 0),
        ("taken after it", taken_in(4, 1), FRESH, 1, 3)]),
    # high numbers
    (MANY, [
        ("transition 31 of 64", taken_in(1, 1), (mask(0, 4), {t: 9 for t in range(24, 31)}), 1, 31),
        ("transition 32 of 64", taken_in(1, 1), (mask(0, 5), {t: 9 for t in range(33, 40)}), 1, 32),
        ("transition 63 of 64", taken_in(1, 1), (mask(0, 9), {}), 1, 63),
        ("transition 62 of 64", NEVER_ACTIVE, (mask(0, 9), {}), 1, 62),
        ("transition 0 of 64", NEVER_ACTIVE, (mask(0, 9), {}), 0, 0),
        ("a timer of many", NEVER_TRIGGERED, (mask(0, 4), {t: 9 for t in range(24, 31)}), 1, 30),
        ("entered by the last round, with eight timers", NEVER_TRIGGERED, (mask(0, 9), {}), 1, 7),
        ("16: 64 of 64", 16, FRESH, 0, 64), ("16: 2^32 - 1 of 64", 16, FRESH, 0, TOP)]),
    (FULL, [
        ("mode 31 with its timer", taken_in(1, 9), (mask(0, 31), {0: 1}, {31: 2}), 0, 0),
        ("mode 31 entered by a timer", NEVER_TRIGGERED, (mask(0, 1), {1: 1}), 0, 0),
        ("mode 31 not active", NEVER_ACTIVE, (mask(0, 30), {}), 0, 0)]),
    (rounds_64(range(64)), [(f"64 rounds: {t}", taken_in(t + 1, t % 8 + 1), FRESH, 1, t) for t in range(64)]
        + [("64 rounds, no event: a first mode", NEVER_TRIGGERED, FRESH, 0, 0),
           ("64 rounds, no event: not a first mode", NEVER_ACTIVE, FRESH, 0, 63)]),
    (rounds_64(range(63, -1, -1)), [(f"64 rounds, the last first: {t}", taken_in(64 - t, (63 - t) % 8 + 1), FRESH, 1, t)
                                    for t in (0, 1, 31, 32, 62, 63)]),
    (levels_15(), [
        ("15 levels: none above is triggered", taken_in(1, 1), FRESH, 0, 33),
        ("15 levels: one within gave way to it", gave_way_to(33), FRESH, 0, 5),
        *[(f"15 levels: gave way to {number} alone", gave_way_to(number), FRESH, 1 << e, 33) for e, number in enumerate(HIGH)],
        *[(f"15 levels: gave way to {number}, the lowest of those from it on", gave_way_to(number), FRESH, 64 - (1 << e), 33)
          for e, number in enumerate(HIGH)],
        ("15 levels: one within gave way to 32, not to 33", gave_way_to(32), FRESH, 8, 5),
        ("15 levels: 0 gave way to 31", gave_way_to(31), FRESH, 63, 0),
        ("15 levels: 0 gave way to 63", gave_way_to(63), FRESH, 33, 0),
        ("15 levels: 32 gave way to 1", gave_way_to(1), FRESH, 14, 32),
        ("15 levels: 63 gave way to 31", gave_way_to(31), FRESH, 63, 63),
        ("15 levels: 31 is on the highest", taken_in(1, 1), FRESH, 63, 31),
        ("15 levels: never active", NEVER_ACTIVE, FRESH, 63, 30),
        ("15 levels: entered, never triggered", NEVER_TRIGGERED, FRESH, 4, 2)]),
]


# ---------------------------------------------------------------- masks of the modes within each mode

def chain(count):
    """Each mode but the first within the one before."""
    return [serial(max(m - 1, 0), m + 1) for m in range(count - 1)] + [atomic(max(count - 2, 0))]


# a name, a sheet past 1 to 6
MASKS = [
    ("one mode", sheet(0, [atomic()])),
    ("32 modes in one chain", sheet(0, chain(32))),
    ("31 modes in one chain", sheet(0, chain(31))),
    ("32 modes, 31 within the root", sheet(0, flat(31))),
    ("the highest mode within the second", sheet(0, [serial(0, 1), serial(0, 31)] + [atomic()] * 29 + [atomic(1)])),
    ("modes of two parents by turns", sheet(0, [parallel(), serial(0, 3), serial(0, 4)] + [atomic(1), atomic(2)] * 3)),
    ("serial in parallel in serial", sheet(0, BOTH)),
    ("two nests beside each other", sheet(0, NEST)),
    ("transitions change no mask", sheet(1, NEST, arrow(2, 3, on(0)), arrow(3, 5, on(0)))),
]


# ---------------------------------------------------------------- the stream

def state_numbers(state):
    """As the conformance program reads a state: the age of mode m stands as a pair of 64 + m and the age."""
    place, readings, *ages = state
    pairs = list(readings.items()) + [(64 + mode, age) for of in ages for mode, age in of.items()]
    return [place, len(pairs)] + [x for pair in pairs for x in pair]


def check_case(name, refusal, words):
    return name, "check", refusal, [1, len(words), *words]


def masks_case(name, refusal):
    return name, "within", refusal, [13]


def run_case(case, name, refusal, state, inputs, outputs):
    word = {2: "sheet", 4: "table"}[case]
    return name, word, refusal, [case, *state_numbers(state), len(inputs), *inputs, outputs]


def why_case(name, answer, state, given, transition):
    return name, "why", answer, [11, *state_numbers(state), given, transition]


def numbers_case(name, refusal, state, inputs, outputs, numbers):
    return name, "alternatives", refusal, [15, *state_numbers(state), len(inputs), *inputs, outputs, numbers]


def compile_case(name, refusal, table, work):
    return name, "compile", refusal, [3, table, work]


def state_cases():
    """CLOCKS, SERIES and FULL with good states and bad ones, and the table of CLOCKS."""
    for words, states in (SERIES, SERIES_STATES), (FULL, FULL_STATES), (CLOCKS, CLOCK_STATES):
        yield check_case("states", 0, words)
        for name, refusal, state in states:
            yield run_case(2, name, refusal, state, [0], 5)
            if refusal:
                yield why_case(name, refusal, state, 0, 0)
    yield compile_case("states of a table", 0, 200, 8)
    for name, refusal, state in TABLE_STATES:
        yield run_case(4, name, refusal, state, [0], 5)
    for case, start in (2, START), (4, 1):
        states = {GOOD: (start, {0: 4, 2: 2}), BAD: (start, {0: 5, 2: 2})}
        for name, refusal, state, inputs, outputs in RUNS:
            yield run_case(case, name, refusal, states[state], inputs, outputs)
    states = {GOOD: (START, {0: 4, 2: 2}), BAD: (START, {0: 5, 2: 2})}
    for name, refusal, state, inputs, outputs, numbers in NUMBERED:
        yield numbers_case(name, refusal, states[state], inputs, outputs, numbers)


def broken_cases():
    """1 to 6 before anything else, and 15 for a table of no word."""
    for refusal, words in BROKEN.items():
        yield check_case(f"{refusal} alone", refusal, words)
        yield run_case(2, f"{refusal}, no input set", refusal, FRESH, [], 0)
        yield run_case(2, f"{refusal} before 14", refusal, (0, {0: 1}), [], 0)
        yield run_case(2, f"{refusal} before 12 and 13", refusal, FRESH, [TOP], 4)
        yield numbers_case(f"{refusal} before too few numbers", refusal, FRESH, [0], 5, 63)
        yield why_case(f"{refusal} alone", refusal, FRESH, 0, 0)
        yield why_case(f"{refusal} before 14", refusal, (0, {0: 1}), 0, 0)
        yield why_case(f"{refusal} before 16", refusal, FRESH, 0, TOP)
        yield why_case(f"{refusal} before 13", refusal, FRESH, TOP, 0)
        yield why_case(f"{refusal} before 14, 16 and 13", refusal, (0, {0: 1}), TOP, TOP)
        yield compile_case(f"{refusal} before 10 and 11", refusal, 0, 0)
        yield compile_case(f"{refusal} leaves the work list", refusal, 20, 4)
        yield run_case(4, f"{refusal} leaves no table, 15 before 14 and 12", 15, (0, {0: 1}), [0], 4)


def tick_cases():
    """Each chart's run, without and with its numbers, its compilation, and the same run of its table."""
    for name, words, inputs, of_run, of_compile in TICKS:
        yield check_case(name, 0, words)
        yield run_case(2, name, of_run, FRESH, inputs, 5 * len(inputs))
        yield numbers_case(name, of_run, FRESH, inputs, 5 * len(inputs), 64 * len(inputs))
        yield compile_case(name, of_compile, 12000, 64)
        if not of_compile:
            yield run_case(4, name, of_run, FRESH, inputs, 5 * len(inputs))


def reason_cases():
    for words, questions in REASONS:
        yield check_case("why", 0, words)
        for question in questions:
            yield why_case(*question)


def compile_cases(compiles):
    for name, refusal, words, table, work in compiles:
        yield check_case(name, 0, words)
        yield compile_case(name, refusal, table, work)


def stream():
    """Name, answer's word, refusal (of a case why: its answer) and numbers of each case."""
    for name, refusal, words in SHEETS:
        yield check_case(name, refusal, words)
        yield masks_case(name, refusal)
    for name, words in MASKS:
        yield check_case(name, 0, words)
        yield masks_case(name, 0)
    yield from broken_cases()
    yield from state_cases()
    yield from tick_cases()
    for name, refusal, words, state, inputs in FIRED:
        yield check_case(name, 0, words)
        yield numbers_case(name, refusal, state, inputs, 5 * len(inputs) + 2, 64 * len(inputs) + 3)
    yield from reason_cases()
    yield from compile_cases(COMPILES)
    yield from compile_cases(LARGE_COMPILES)
    for name, refusal, tick, delays, results in CONVERSIONS:
        yield name, "milliseconds", refusal, [17, tick, len(delays), *delays, results]


def main(words):
    for name, word, answer, numbers in stream():
        if words == ["--refusals"]:
            print(word, answer, name)
        elif words != ["--reasons"]:
            print(*numbers)
        elif word == "why":
            print(word, answer)


if __name__ == "__main__":
    main(sys.argv[1:])
