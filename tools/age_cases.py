"""Cases of the age of each mode, with whole answers written by hand: runs of sheets, with and without their numbers, of tables,
and why.

    age_cases.py                the cases, as the conformance program reads them, without the 0 that ends a stream
    age_cases.py --refusals     for each answer its word, the refusal that the documents give, and the case's name
    age_cases.py --answers      the answers that the documents give
"""

import sys

from directed_cases import (BROKEN, DUE, EXAMPLE, FRESH, INNER, NEVER_ACTIVE, NEVER_TRIGGERED, THREE, TOP, TWO, after, arrow,
                            atomic, check_case, flat, mask, numbers_case, off, on, regions, run_case, sheet, state_numbers,
                            taken, taken_in, why_case)
from foreign_tables import ordered
from hostile_tables import EXAMPLE as TABLE, START, STAY, block, cell, example, lapsing, table

OLDEST = 65535


# ---------------------------------------------------------------- sheets

# the words of a tick: entered, exited, active, taken. Of EXAMPLE, {0, 1} is 3 and {0, 2} is 5; its timer is transition 1
POWER_ON, REST_1, REST_2 = (3, 0, 3, 0), (0, 0, 3, 0), (0, 0, 5, 0)
GOES, COMES, GOES_AGAIN = (4, 2, 7, 1), (2, 4, 7, 2), (6, 6, 7, 3)

# a name, the refusal, the state, the input sets, the words of each tick done, the rounds, the state after
EXAMPLE_RUNS = [
    ("a list without a set", 0, (3, {}, {0: 8, 1: 9}), [], [], 0, (3, {}, {0: 8, 1: 9})),
    ("power-on: all ages are 0", 0, FRESH, [0], [POWER_ON], 0, (3, {})),
    ("power-on, a mode passed through", 0, FRESH, [1], [(7, 2, 7, 1)], 1, (5, {1: 2})),
    ("a tick after power-on", 0, FRESH, [0, 0], [POWER_ON, REST_1], 0, (3, {}, {0: 1, 1: 1})),
    ("two ticks after power-on", 0, FRESH, [0, 0, 0], [POWER_ON, REST_1, REST_1], 0, (3, {}, {0: 2, 1: 2})),
    ("a mode is left, another entered", 0, FRESH, [0, 0, 1], [POWER_ON, REST_1, GOES], 1, (5, {1: 2}, {0: 2})),
    ("the one entered ages in the next tick", 0, FRESH, [0, 0, 1, 1], [POWER_ON, REST_1, GOES, REST_2], 1,
     (5, {1: 1}, {0: 3, 2: 1})),
    ("its timer is due, the other is entered anew", 0, FRESH, [0, 0, 1, 1, 0, 0],
     [POWER_ON, REST_1, GOES, REST_2, COMES, REST_1], 2, (3, {}, {0: 5, 1: 1})),
    ("a mode is left and entered again in one tick", 0, FRESH, [1, 0, 1], [(7, 2, 7, 1), REST_2, GOES_AGAIN], 3,
     (5, {1: 2}, {0: 2})),
    ("ages go on from those of the state", 0, (3, {}, {0: 40, 1: 7}), [0, 0], [REST_1, REST_1], 0, (3, {}, {0: 42, 1: 9})),
    ("a child is older than its parent", 0, (3, {}, {1: 9}), [0], [REST_1], 0, (3, {}, {0: 1, 1: 10})),
    ("a parent is older than its timer's source", 0, (5, {1: 1}, {0: 500, 2: 1}), [0], [COMES], 1, (3, {}, {0: 501})),
    ("a timer's source is older than its parent", 0, (5, {1: 1}, {2: 1}), [1], [GOES_AGAIN], 2, (5, {1: 2}, {0: 1})),
    ("65,533 and 65,534", 0, (3, {}, {0: 65533, 1: 65534}), [0], [REST_1], 0, (3, {}, {0: 65534, 1: OLDEST})),
    ("an age stops", 0, (3, {}, {0: 65533, 1: 65534}), [0, 0], [REST_1] * 2, 0, (3, {}, {0: OLDEST, 1: OLDEST})),
    ("an age has stopped", 0, (3, {}, {0: 65533, 1: 65534}), [0] * 4, [REST_1] * 4, 0, (3, {}, {0: OLDEST, 1: OLDEST})),
    ("65,535 of both", 0, (3, {}, {0: OLDEST, 1: OLDEST}), [0], [REST_1], 0, (3, {}, {0: OLDEST, 1: OLDEST})),
    ("65,535, and no set", 0, (3, {}, {0: OLDEST, 1: OLDEST}), [], [], 0, (3, {}, {0: OLDEST, 1: OLDEST})),
    ("65,535, left and entered later", 0, (3, {}, {0: OLDEST, 1: OLDEST}), [1, 0, 0, 0], [GOES, REST_2, COMES, REST_1], 2,
     (3, {}, {0: OLDEST, 1: 1})),
    ("13 leaves the ages of the tick before", 13, (3, {}, {0: 4, 1: 6}), [0, 2, 0], [REST_1], 0, (3, {}, {0: 5, 1: 7})),
    ("13 in the first tick", 13, (3, {}, {0: 4, 1: 6}), [2], [], 0, (3, {}, {0: 4, 1: 6})),
    ("13 in the first tick, ages at their limit", 13, (3, {}, {0: OLDEST}), [2], [], 0, (3, {}, {0: OLDEST})),
]

# a name, the state: refused 14, of the sheet and of its table
EXAMPLE_REFUSED = [
    ("65,536 of the root", (3, {}, {0: 65536})),
    ("65,536 of a mode", (3, {}, {1: 65536})),
    ("65,537 of a mode", (3, {}, {1: 65537})),
    ("2^31 of a mode", (3, {}, {1: 2 ** 31})),
    ("2^32 - 1 of a mode", (3, {}, {1: TOP})),
    ("65,535 of one and 65,536 of the other", (3, {}, {0: OLDEST, 1: 65536})),
    ("1 of an inactive mode", (3, {}, {2: 1})),
    ("1 of an inactive mode, others active", (3, {}, {0: 1, 1: 1, 2: 1})),
    ("2^32 - 1 of an inactive mode", (3, {}, {2: TOP})),
    ("1 of mode n", (3, {}, {3: 1})),
    ("1 of mode 31", (3, {}, {31: 1})),
    ("1 of an inactive mode, a timer runs", (5, {1: 2}, {1: 1})),
    ("1 of mode n, a timer runs", (5, {1: 1}, {2: 1, 3: 1})),
    ("65,536 of the root, a timer runs", (5, {1: 2}, {0: 65536})),
    ("1 of the root in the fresh state", (0, {}, {0: 1})),
    ("1 of a mode in the fresh state", (0, {}, {1: 1})),
    ("1 of mode 31 in the fresh state", (0, {}, {31: 1})),
    ("65,536 of the root in the fresh state", (0, {}, {0: 65536})),
]

# a name, the state: refused 14 of the sheet alone, as reading plus age of its source is not its delay 2
EXAMPLE_SUMS = [
    ("reading 1 and age 0", (5, {1: 1})),
    ("reading 1 and age 2", (5, {1: 1}, {2: 2})),
    ("reading 2 and age 1", (5, {1: 2}, {2: 1})),
    ("reading 1, the root has the age", (5, {1: 1}, {0: 1})),
    ("reading 2 and age 65,535", (5, {1: 2}, {2: OLDEST})),
    ("reading 1 and age 65,535", (5, {1: 1}, {2: OLDEST})),
    ("reading 1 and age 65,534", (5, {1: 1}, {2: 65534})),
]

# a name, the answer, the state, the input set, the transition
EXAMPLE_REASONS = [
    ("of ages", NEVER_TRIGGERED, (3, {}, {0: 7, 1: 3}), 0, 0),
    ("of ages at their limit", taken_in(1, 1), (3, {}, {0: OLDEST, 1: OLDEST}), 1, 0),
    ("of a timer's source of age 1", taken_in(1, 9), DUE, 0, 1),
    ("of a timer's source of age 0", NEVER_TRIGGERED, (5, {1: 2}, {0: 9}), 0, 1),
    ("of a source that is not active", NEVER_ACTIVE, (3, {}, {0: 7, 1: 3}), 0, 1),
    ("14 by an age before 16", 14, (3, {}, {2: 1}), 0, 2),
    ("14 by an age before 13", 14, (3, {}, {0: 65536}), 2, 0),
    ("14 by a sum before 16 and 13", 14, (5, {1: 1}), 2, 2),
    ("16, the ages are good", 16, (3, {}, {0: 7}), 2, 2),
    ("13, the ages are good", 13, (5, {1: 1}, {2: 1}), 2, 1),
]

# 14 before others, by an age and by a sum: a name, the state, the input sets, output words, numbers
EXAMPLE_ORDER = [
    ("14 by an age and no set", (3, {}, {2: 1}), [], 0, 0),
    ("14 by an age and 12", (3, {}, {2: 1}), [0, 0], 9, 128),
    ("14 by an age and 13", (3, {}, {0: 65536}), [2], 5, 64),
    ("14 by an age, 12 and 13", (0, {}, {0: 1}), [2, 0], 4, 63),
    ("14 by an age and too few numbers", (3, {}, {31: 1}), [0], 5, 63),
]
SUM_ORDER = [
    ("14 by a sum and no set", (5, {1: 1}), [], 0, 0),
    ("14 by a sum and 12", (5, {1: 1}), [0], 4, 64),
    ("14 by a sum and 13", (5, {1: 2}, {2: 1}), [2], 5, 64),
    ("14 by a sum and too few numbers", (5, {1: 2}, {2: 1}), [0], 5, 63),
]

# two timers of one source, of equal delays: 1 leaves for 2 and for 3
TWINS = sheet(0, THREE, arrow(1, 2, after(2)), arrow(1, 3, after(2)))
TWIN_RUNS = [
    ("two timers of one source", 0, FRESH, [0, 0], [POWER_ON, REST_1], 0, (3, {0: 1, 1: 1}, {0: 1, 1: 1})),
    ("a refused tick leaves the ages of the tick before", 8, FRESH, [0, 0, 0], [POWER_ON, REST_1], 0,
     (3, {0: 1, 1: 1}, {0: 1, 1: 1})),
    ("refused at once", 8, (3, {0: 1, 1: 1}, {0: 70, 1: 1}), [0, 0], [], 0, (3, {0: 1, 1: 1}, {0: 70, 1: 1})),
]
TWIN_SUMS = [(f"two timers of one source started apart, age {age}", (3, {0: 1, 1: 2}, {1: age} if age else {}))
             for age in (0, 1, 2, OLDEST)] + [
    ("the other one is ahead, age 1", (3, {0: 2, 1: 1}, {1: 1})),
    ("the other one is ahead, age 0", (3, {0: 2, 1: 1})),
]
TWIN_REASONS = [("8 of good ages", 8, (3, {0: 1, 1: 1}, {1: 1}), 0, 0), ("14 before 8", 14, (3, {0: 1, 1: 1}), 0, 0)]

# there and back on one event: the second tick is restless
TO_AND_FRO = sheet(1, TWO, arrow(1, 2, on(0)), arrow(2, 1, on(0)))
RESTLESS_RUNS = [("a restless tick leaves the ages of the tick before", 9, (3, {}, {0: 3, 1: OLDEST}), [0, 1, 0], [REST_1], 0,
                  (3, {}, {0: 4, 1: OLDEST}))]

# the longest delay: its source is at most 65,534 old
LONGEST = sheet(0, TWO, arrow(1, 2, after(65535)))
LONGEST_RUNS = [
    ("the longest delay begins", 0, FRESH, [0, 0], [POWER_ON, REST_1], 0, (3, {0: 65534}, {0: 1, 1: 1})),
    ("the longest delay ends", 0, (3, {0: 2}, {0: OLDEST, 1: 65533}), [0, 0, 0], [REST_1, GOES, REST_2], 1,
     (5, {}, {0: OLDEST, 2: 1})),
    ("its last tick but one", 0, (3, {0: 2}, {0: 9, 1: 65533}), [0], [REST_1], 0, (3, {0: 1}, {0: 10, 1: 65534})),
]
LONGEST_SUMS = [
    ("the longest delay, reading 1 and age 65,535", (3, {0: 1}, {1: OLDEST})),
    ("the longest delay, reading 1 and age 65,533", (3, {0: 1}, {1: 65533})),
    ("the longest delay, no reading and age 65,535", (3, {}, {1: OLDEST})),
    ("the longest delay and age 1", (3, {0: 65535}, {1: 1})),
    ("the longest delay and age 65,535", (3, {0: 65535}, {1: OLDEST})),
]

# two regions: 1 with 2 and 3 on the event, 4 with 5 and 6 by timers of 2 and 1
SIDES = sheet(1, regions(2, 2), arrow(2, 3, on(0)), arrow(3, 2, off(0)), arrow(5, 6, after(2)), arrow(6, 5, after(1)))
SIDE_TICKS = [(55, 0, 55, 0), (8, 4, 63, 1), (64, 32, 123, 4), (32, 64, 123, 8), (4, 8, 63, 2)]
SIDE_STATES = [(55, {2: 2}), (59, {2: 1}, {0: 1, 1: 1, 4: 1, 5: 1}), (91, {3: 1}, {0: 2, 1: 2, 3: 1, 4: 2}),
               (59, {2: 2}, {0: 3, 1: 3, 3: 2, 4: 3}), (55, {2: 1}, {0: 4, 1: 4, 4: 4, 5: 1})]
SIDE_RUNS = [(f"two regions, {i + 1} ticks", 0, FRESH, [0, 1, 1, 1, 0][:i + 1], SIDE_TICKS[:i + 1], i, SIDE_STATES[i])
             for i in range(5)]
SIDE_SUMS = [
    ("the other region's age", (55, {2: 1}, {2: 1})),
    ("the region's age", (55, {2: 1}, {4: 1})),
    ("the age of the timer's target", (91, {3: 1}, {5: 1})),
]

# 1 with 2 and 3; 4 beside it, entered in passing where the timer of 1 is due
NEST = sheet(1, INNER, arrow(2, 3, on(0)), arrow(3, 2, off(0)), arrow(1, 4, after(4)), arrow(4, 3, taken(2)))
NEST_TICKS = [(7, 0, 7, 0), (8, 4, 15, 1), (0, 0, 11, 0), (0, 0, 11, 0), (26, 26, 27, 12)]
NEST_RUNS = [
    ("a child moves, its parent ages", 0, FRESH, [0, 1], NEST_TICKS[:2], 1, (11, {2: 3}, {0: 1, 1: 1})),
    ("parent and child age apart", 0, FRESH, [0, 1, 1, 1], NEST_TICKS[:4], 1, (11, {2: 1}, {0: 3, 1: 3, 3: 2})),
    ("parent and child are left and entered again", 0, FRESH, [0, 1, 1, 1, 1], NEST_TICKS, 3, (11, {2: 4}, {0: 4})),
]
NEST_SUMS = [("the child's age for its parent's timer", (11, {2: 3}, {3: 1}))]

# 32 modes: 1 leaves for 31, which has a timer
HIGH = sheet(1, flat(31), arrow(1, 31, on(0)), arrow(31, 30, after(3)))
AT_31 = mask(0, 31)
HIGH_RUNS = [
    ("mode 31 is entered", 0, FRESH, [1], [(3 | AT_31, 2, 3 | AT_31, 1)], 1, (AT_31, {1: 3})),
    ("mode 31 ages", 0, (AT_31, {1: 3}, {0: 5}), [0, 1], [(0, 0, AT_31, 0)] * 2, 0, (AT_31, {1: 1}, {0: 7, 31: 2})),
    ("mode 31 is left", 0, (AT_31, {1: 1}, {0: 7, 31: 2}), [0], [(mask(30), mask(31), AT_31 | mask(30), 2)], 1,
     (mask(0, 30), {}, {0: 8})),
]
HIGH_SUMS = [
    ("mode 31 is too young", (AT_31, {1: 1}, {31: 1})),
    ("mode 31 is too old", (AT_31, {1: 1}, {31: 3})),
    ("an age of mode 31, inactive", (mask(0, 30), {}, {31: 1})),
    ("an age of mode 30, inactive", (AT_31, {1: 3}, {30: 1})),
    ("65,536 of mode 30", (mask(0, 30), {}, {30: 65536})),
]

# the numbers of each sheet's transitions where they are taken: 9 for a delay; the sheet's runs, its states refused 14, its reasons
SHEETS = [
    (TWINS, [9, 9], TWIN_RUNS, TWIN_SUMS, TWIN_REASONS),
    (TO_AND_FRO, [1, 1], RESTLESS_RUNS, [], []),
    (LONGEST, [9], LONGEST_RUNS, LONGEST_SUMS, []),
    (SIDES, [1, 1, 9, 9], SIDE_RUNS, SIDE_SUMS, []),
    (NEST, [1, 1, 9, 1], NEST_RUNS, NEST_SUMS, []),
    (HIGH, [1, 9], HIGH_RUNS, HIGH_SUMS, [("mode 31 of age 2", taken_in(1, 9), (AT_31, {1: 1}, {31: 2}), 0, 1)]),
    (sheet(0, [atomic()]), [], [("one mode", 0, (1, {}, {0: 65534}), [0, 0, 0], [(0, 0, 1, 0)] * 3, 0, (1, {}, {0: OLDEST}))],
     [("1 of mode 1 of one", (1, {}, {1: 1})), ("65,536 of the only mode", (1, {}, {0: 65536}))], []),
    (EXAMPLE, [1, 9], EXAMPLE_RUNS, EXAMPLE_REFUSED + EXAMPLE_SUMS, EXAMPLE_REASONS),
]


# ---------------------------------------------------------------- tables

def words(entered=0):
    """The words of a cell of hostile_tables: of exited, active and taken any."""
    return entered, 2, 3, 5 << 32 | 4


# a mode that appears without being entered, and one that is entered and not there
TURNS = table(0, [], block(0, 0, cell(1)), block(3, 0, cell(2)), block(5, 0, cell(1)))
ENTERS_OTHERS = table(0, [], block(0, 0, cell(1, TOP)), block(3, 0, cell(2, 2)), block(5, 0, cell(1, 4)))
NO_ROOT = table(0, [], START, block(2, 0, cell(1)))
ALL = table(0, [], block(0, 0, cell(1, 1)), block(TOP, 0, cell(1, 2)))

# tables, and of each: a name, the refusal, the state, the input sets, the words of each tick done, the state after
TABLES = [
    (TABLE, [
        ("the sum is not asked of a table", 0, (2, {1: 1}), [0], [COMES], (1, {}, {0: 1})),
        ("nor the sum of an old source", 0, (2, {1: 2}, {2: 9}), [0], [REST_2], (2, {1: 1}, {0: 1, 2: 10})),
        ("nor the sum of a source of age 65,535", 0, (2, {1: 2}, {2: OLDEST}), [0, 1], [REST_2, GOES_AGAIN],
         (2, {1: 2}, {0: 2})),
        ("a reading of its delay + 1, no age", 14, (2, {1: 3}), [0], [], (2, {1: 3})),
        ("a reading of 0, the source is as old as its delay", 14, (2, {}, {2: 2}), [0], [], (2, {}, {2: 2}))]),
    (example({16: 1}), [
        ("power-on enters the root alone: another mode of the block is 1 old", 0, FRESH, [0], [(1, 0, 3, 0)], (1, {}, {1: 1})),
        ("it ages on", 0, FRESH, [0, 0], [(1, 0, 3, 0), REST_1], (1, {}, {0: 1, 1: 2}))]),
    (TURNS, [
        ("a mode that appears without being entered ages by one", 0, FRESH, [0], [words()], (1, {}, {0: 1, 1: 1})),
        ("the next one, and the one before is gone", 0, FRESH, [0, 0], [words()] * 2, (2, {}, {0: 2, 2: 1})),
        ("and back: its age was 0 while it was gone", 0, (1, {}, {0: 50, 1: 60}), [0, 0], [words()] * 2,
         (1, {}, {0: 52, 1: 1})),
        ("a mode of age 65,535 is gone", 0, (2, {}, {0: OLDEST, 2: OLDEST}), [0], [words()], (1, {}, {0: OLDEST, 1: 1})),
        ("14: an age of the mode that is gone", 14, (2, {}, {1: 1}), [0], [], (2, {}, {1: 1})),
        ("14: the sheet would have it, the block has not", 14, (1, {}, {2: 1}), [0], [], (1, {}, {2: 1}))]),
    (ENTERS_OTHERS, [
        ("power-on enters all modes: those of the block are 0 old", 0, FRESH, [0], [words(TOP)], (1, {})),
        ("a mode is entered that the next block lacks", 0, FRESH, [0, 0], [words(TOP), words(2)], (2, {}, {0: 1, 2: 1})),
        ("and the other", 0, FRESH, [0] * 3, [words(TOP), words(2), words(4)], (1, {}, {0: 2, 1: 1})),
        ("so it stays 0 old", 0, (1, {}, {0: 4, 1: 4}), [0, 0], [words(2), words(4)], (1, {}, {0: 6, 1: 1}))]),
    (NO_ROOT, [
        ("a block without the root", 0, FRESH, [0, 0], [words()] * 2, (1, {}, {1: 2})),
        ("14: an age of the root, which the block lacks", 14, (1, {}, {0: 1, 1: 1}), [0], [], (1, {}, {0: 1, 1: 1}))]),
    (ALL, [
        ("a block of 32 modes", 0, FRESH, [0], [words(1)], (1, {}, {m: 1 for m in range(1, 32)})),
        ("each has its own age, the one entered 0", 0, (1, {}, {m: 1000 * m + 1 for m in range(32)}), [0, 0], [words(2)] * 2,
         (1, {}, {m: 1000 * m + 3 for m in range(32) if m != 1})),
        ("all as old as an age can be", 0, (1, {}, {m: 65534 for m in range(32)}), [0, 0], [words(2)] * 2,
         (1, {}, {m: OLDEST for m in range(32) if m != 1})),
        ("65,535 of mode 31", 0, (1, {}, {31: OLDEST}), [], [], (1, {}, {31: OLDEST})),
        ("65,536 of mode 31", 14, (1, {}, {31: 65536}), [], [], (1, {}, {31: 65536}))]),
    (lapsing(0), [
        ("15 at a tick leaves the ages of the tick before", 15, (1, {0: 2}, {0: 7}), [0, 0], [words()], (1, {0: 1}, {0: 8})),
        ("15 at the first tick", 15, (1, {0: 1}, {0: OLDEST}), [0], [], (1, {0: 1}, {0: OLDEST}))]),
    (example({0: 2}), [
        ("15 before 14 by an age", 15, (1, {}, {0: 65536}), [0], [], (1, {}, {0: 65536})),
        ("15 before 14 by an age of the fresh state", 15, (0, {}, {0: 1}), [0], [], (0, {}, {0: 1}))]),
    (table(0, [], START, STAY), [
        ("block B with an age", 14, (2, {}, {0: 1}), [0], [], (2, {}, {0: 1})),
        ("block 0 with an age", 14, (0, {}, {0: 1}), [0], [], (0, {}, {0: 1}))]),
]


# ---------------------------------------------------------------- the answers

def digest(numbers):
    """As the conformance program prints a list."""
    h = 0
    for number in numbers:
        h = (h * 65599 + number + 1) % 4294967291
    return h


def shown(state):
    """A state as an answer has it: as a case has it, without how many pairs follow."""
    place, _, *pairs = state_numbers(state)
    return [place, *pairs]


def out(ticks, inputs):
    """The output words: those of the ticks done, and what was lent."""
    done = [word for *sets, took in ticks for word in (*sets, took % 2 ** 32, took >> 32)]
    return done + [TOP] * (5 * len(inputs) - len(done))


def numbers_of(ticks, inputs, fired):
    """The same of the numbers, of which each transition has one."""
    done = [fired[t] if t < len(fired) and tick[3] >> t & 1 else 0 for tick in ticks for t in range(64)]
    return done + [TOP] * (64 * len(inputs) - len(done))


def answered(case, *numbers):
    """A case, and the numbers of its answer after the refusal."""
    return case, [case[2], *numbers]


def sheet_answers(fired, name, refusal, before, inputs, ticks, rounds, end):
    """Both runs of the sheet."""
    counts = [len(ticks), rounds, digest(out(ticks, inputs))]
    yield answered(run_case(2, name, refusal, before, inputs, 5 * len(inputs)), *counts, *shown(end))
    case = numbers_case(name, refusal, before, inputs, 5 * len(inputs), 64 * len(inputs))
    yield answered(case, *counts, digest(numbers_of(ticks, inputs, fired)), *shown(end))


def table_answer(name, refusal, before, inputs, ticks, end):
    case = run_case(4, name, refusal, before, inputs, 5 * len(inputs))
    return answered(case, len(ticks), digest(out(ticks, inputs)), *shown(end))


def why_answer(name, answer, state, given, transition):
    return answered(why_case(name, answer, state, given, transition))


def refused(name, refusal, state):
    """A run refused at once."""
    return name, refusal, state, [0], [], 0, state


def order_answers(name, state, inputs, outputs, numbers):
    """14 of both runs of the sheet, whatever is lent."""
    counts = [0, 0, digest([TOP] * outputs)]
    yield answered(run_case(2, name, 14, state, inputs, outputs), *counts, *shown(state))
    yield answered(numbers_case(name, 14, state, inputs, outputs, numbers), *counts, digest([TOP] * numbers), *shown(state))


def of_table(state, blocks):
    """A state of EXAMPLE as one of a table of it, whose blocks stand for its mode sets."""
    return (blocks[state[0]], *state[1:])


def example_runs(blocks):
    """The runs of EXAMPLE, as runs of such a table."""
    runs = [(name, refusal, of_table(before, blocks), inputs, ticks, of_table(end, blocks))
            for name, refusal, before, inputs, ticks, _, end in EXAMPLE_RUNS]
    refusals = [(name, of_table(state, blocks)) for name, state in EXAMPLE_REFUSED]
    return runs + [(name, 14, state, [0], [], state) for name, state in refusals]


def brought(brings, answer):
    """The case after a table is brought."""
    (name, word, refusal, numbers), line = answer
    return (name, word, refusal, [24, len(brings), *brings] + numbers), line


def sheet_stream():
    for sheet_words, fired, runs, bad, reasons in SHEETS:
        yield answered(check_case("ages", 0, sheet_words))
        for run in runs + [refused(name, 14, state) for name, state in bad]:
            yield from sheet_answers(fired, *run)
        for name, state in bad:
            yield why_answer(name, 14, state, 0, 0)
        for reason in reasons:
            yield why_answer(*reason)
    for given in EXAMPLE_ORDER + SUM_ORDER:
        yield from order_answers(*given)


def broken_stream():
    """1 to 6 before 14, by an age."""
    for refusal, broken in BROKEN.items():
        yield answered(check_case(f"{refusal} alone", refusal, broken))
        for state in (0, {}, {0: 1}), (3, {}, {0: 65536}):
            yield from sheet_answers([], *refused(f"{refusal} before 14 by an age", refusal, state))
            yield why_answer(f"{refusal} before 14 by an age", refusal, state, 0, 0)


def table_stream():
    """The runs of TABLES, then those of EXAMPLE on its table with the blocks in another order, and as we compile it."""
    ours, other = {0: 0, 3: 1, 5: 2}, {0: 0, 3: 2, 5: 1}
    for brings, runs in TABLES + [(ordered(TABLE, [0, 2, 1]), example_runs(other)), (TABLE, example_runs(ours))]:
        answers = [table_answer(*run) for run in runs]
        yield brought(brings, answers[0])
        yield from answers[1:]
    for name, state, inputs, outputs, _ in EXAMPLE_ORDER:
        state = of_table(state, ours)
        yield answered(run_case(4, name, 14, state, inputs, outputs), 0, digest([TOP] * outputs), *shown(state))


def stream():
    yield from sheet_stream()
    yield from broken_stream()
    yield from table_stream()


def main(given):
    for (name, word, refusal, numbers), answer in stream():
        if given == ["--refusals"]:
            print(word, refusal, name)
        elif given == ["--answers"]:
            print(word, *answer)
        else:
            print(*numbers)


if __name__ == "__main__":
    main(sys.argv[1:])
