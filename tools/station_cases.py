"""Cases of stations under one tick allowance, with whole answers written by hand: of each call the refusal, the ticks spent and
where each station stands with which mark; its words and its state are those of a run alone, which stand beside it.

    station_cases.py                the cases, as the conformance program reads them, without the 0 that ends a stream
    station_cases.py --refusals     for each answer its word, the refusal that the documents give, and the case's name
    station_cases.py --answers      the answers that the documents give
"""

import sys

from age_cases import COMES, GOES, GOES_AGAIN, OLDEST, POWER_ON, REST_1, REST_2, digest
from directed_cases import FRESH, state_numbers
from hostile_tables import EXAMPLE, TOP, example

ALL = 1000                  # an allowance that is never spent here
UNSOUND = example({0: 2})
UNENTERED = example({37: 3, 22: 0})     # event 0 leads to block 2 without entering the timer's source: 15 at that tick


# ---------------------------------------------------------------- runs alone

# a state, then of each set to come the set, the words of its tick and the state after it; a set that has no tick stands alone
LINE = [FRESH, (0, POWER_ON, (1, {})), (0, REST_1, (1, {}, {0: 1, 1: 1})), (1, GOES, (2, {1: 2}, {0: 2})),
        (1, REST_2, (2, {1: 1}, {0: 3, 2: 1})), (0, COMES, (1, {}, {0: 4})), (0, REST_1, (1, {}, {0: 5, 1: 1}))]
HELD = [FRESH, (1, (7, 2, 7, 1), (2, {1: 2})), (0, REST_2, (2, {1: 1}, {0: 1, 2: 1})), (1, GOES_AGAIN, (2, {1: 2}, {0: 2}))]
DUE = [(2, {1: 1}), (0, COMES, (1, {}, {0: 1}))]

# two lists from one state, which has ages; and ages that reach their limit
MIDDLE = (1, {}, {0: 40, 1: 7})
STAYS = [MIDDLE, (0, REST_1, (1, {}, {0: 41, 1: 8})), (0, REST_1, (1, {}, {0: 42, 1: 9}))]
LEAVES = [MIDDLE, (1, GOES, (2, {1: 2}, {0: 41})), (0, REST_2, (2, {1: 1}, {0: 42, 2: 1})), (0, COMES, (1, {}, {0: 43}))]
OLD = [(1, {}, {0: 65533, 1: 65534}), (0, REST_1, (1, {}, {0: 65534, 1: OLDEST})), (0, REST_1, (1, {}, {0: OLDEST, 1: OLDEST})),
       (0, REST_1, (1, {}, {0: OLDEST, 1: OLDEST}))]


def quiet(sets):
    """From power-on, without event 0: after j ticks both modes are j - 1 old."""
    states = [(1, {})] + [(1, {}, {0: j, 1: j}) for j in range(1, sets)]
    return [FRESH] + [(0, REST_1 if j else POWER_ON, states[j]) for j in range(sets)]


def stops(run, given=2):
    """The run with one more set, which is not served."""
    return run + [(given,)]


def idle(state, *sets):
    """A state and sets that have no tick."""
    return [state] + [(given,) for given in sets]


# states refused 14, of the example's table
REFUSED = [
    ("a reading in a block without timers", (1, {1: 1})),
    ("block B", (3, {})),
    ("block 4,096", (4096, {})),
    ("no reading of a running timer", (2, {})),
    ("a reading above its delay", (2, {1: 3})),
    ("a reading of another transition", (2, {0: 1, 1: 1})),
    ("a reading in the fresh state", (0, {1: 1})),
    ("an age of 65,536", (1, {}, {0: 65536})),
    ("an age of an inactive mode", (1, {}, {2: 1})),
    ("an age in the fresh state", (0, {}, {0: 1})),
]
BAD = REFUSED[0][1]


# ---------------------------------------------------------------- calls

def at(run, after, mark=0, before=0, position=None, lent=0, spare=0):
    """A station, and where it stands after the call with which mark. Its part has so many sets before the run's, which are
    illegal; it is lent at the run's first set, or at the position given, with the mark `lent`, and with spare output words."""
    return run, after, mark, before, before if position is None else position, lent, spare


# a name, the allowance, the ticks spent, the stations; whether the last station's parts come first in the lists

THREE = (LINE[:4], HELD[:2], quiet(2))          # of 3, 1 and 2 sets


def three(allowance, spent, *after, last_first=False):
    name = f"three stations, allowance {allowance}" + last_first * ", the last one's parts first"
    return name, allowance, spent, [at(run, to) for run, to in zip(THREE, after)], last_first


PASSES = [
    three(0, 0, 0, 0, 0),
    three(1, 1, 1, 0, 0),
    three(2, 2, 1, 1, 0),
    three(3, 3, 1, 1, 1),
    three(4, 4, 2, 1, 1),
    three(5, 5, 2, 1, 2),
    three(6, 6, 3, 1, 2),
    three(7, 6, 3, 1, 2),
    three(2 ** 16, 6, 3, 1, 2),
    three(2 ** 31, 6, 3, 1, 2),
    three(TOP, 6, 3, 1, 2),
    *(three(*numbers, last_first=True) for numbers in ((1, 1, 1, 0, 0), (2, 2, 1, 1, 0), (4, 4, 2, 1, 1), (6, 6, 3, 1, 2))),
    ("one station, allowance 1", 1, 1, [at(LINE, 1)]),
    ("one station, allowance 5", 5, 5, [at(LINE, 5)]),
    ("one station, allowance 6", 6, 6, [at(LINE, 6)]),
    ("one station, allowance 7", 7, 6, [at(LINE, 6)]),
    ("one station has work among three", 2, 2, [at(idle(FRESH), 0), at(LINE, 2), at(idle(FRESH), 0)]),
    # the least share is the allowance divided by all stations, rounded down
    ("three of six sets, allowance 8", 8, 8, [at(LINE, 3), at(quiet(6), 3), at(quiet(6), 2)]),
    ("three of six sets, allowance 9", 9, 9, [at(LINE, 3), at(quiet(6), 3), at(quiet(6), 3)]),
    ("what a short list leaves goes to the others", 12, 12, [at(quiet(10), 6), at(HELD[:2], 1), at(quiet(10), 5)]),
    ("short lists first", 12, 12, [at(HELD[:2], 1), at(quiet(2), 2), at(quiet(20), 9)]),
    ("short lists last", 12, 12, [at(quiet(20), 9), at(quiet(2), 2), at(HELD[:2], 1)]),
    # every call begins with station 0: the same two stations in four calls
    ("allowance 1, the first call", 1, 1, [at(LINE[:4], 1), at(HELD[:2], 0)]),
    ("allowance 1, the second call", 1, 1, [at([LINE[1][2]] + LINE[2:4], 2, before=1), at(HELD[:2], 0)]),
    ("allowance 1, the third call", 1, 1, [at([LINE[2][2]] + LINE[3:4], 3, before=2), at(HELD[:2], 0)]),
    ("allowance 1, the fourth call", 1, 1, [at([LINE[3][2]], 3, before=3), at(HELD[:2], 1)]),
    ("a station that is ahead comes first all the same", 1, 1, [at(STAYS, 6, before=5), at(LINE, 0)]),
    ("a station that is behind has one tick in a pass", 3, 3, [at(LINE, 2), at(STAYS, 6, before=5)]),
    # many
    ("64 stations, allowance 63", 63, 63, [at(quiet(1), 1)] * 63 + [at(quiet(1), 0)]),
    ("64 stations, allowance 64", 64, 64, [at(quiet(1), 1)] * 64),
    ("64 stations, allowance 65", 65, 64, [at(quiet(1), 1)] * 64),
    ("64 stations of two sets, allowance 100", 100, 100, [at(quiet(2), 2)] * 36 + [at(quiet(2), 1)] * 28),
    ("64 stations of six sets, allowance 200", 200, 200, [at(quiet(6), 4)] * 8 + [at(quiet(6), 3)] * 56),
    ("400 sets, allowance 399", 399, 399, [at(quiet(400), 399)]),
    ("400 sets, allowance 400", 400, 400, [at(quiet(400), 400)]),
    ("400 sets, allowance 401", 401, 400, [at(quiet(400), 400)]),
]

STOPS = [
    ("an illegal set stops and costs no tick", 1, 1, [at(idle(FRESH, 2), 0, 13), at(quiet(1), 1)]),
    ("an illegal set, allowance 0", 0, 0, [at(idle(FRESH, 2), 0), at(quiet(1), 0)]),
    ("an illegal set after the allowance is spent", 1, 1, [at(quiet(1), 1), at(idle(FRESH, 2), 0)]),
    ("the next call meets it", 1, 0, [at([(1, {})], 1, before=1), at(idle(FRESH, 2), 0, 13)]),
    ("an illegal set, allowance 2", 2, 1, [at(quiet(1), 1), at(idle(FRESH, 2), 0, 13)]),
    ("the set 3", ALL, 0, [at(idle(FRESH, 3), 0, 13)]),
    ("the set 2^31", ALL, 0, [at(idle(FRESH, 2 ** 31), 0, 13)]),
    ("the set 2^32 - 1", ALL, 0, [at(idle(FRESH, TOP), 0, 13)]),
    ("what follows an illegal set is not served", ALL, 0, [at(idle(FRESH, 2, 0, 0), 0, 13)]),
    ("all stop", 1, 0, [at(idle(FRESH, 2), 0, 13)] * 3),
    ("all stop after two ticks", ALL, 6, [at(stops(quiet(2)), 2, 13)] * 3),
    ("an illegal set is the third, allowance 2", 2, 2, [at(stops(quiet(2)), 2)]),
    ("an illegal set is the third, allowance 3", 3, 2, [at(stops(quiet(2)), 2, 13)]),
    # the stop of the second of three, at its third turn
    ("the second of three stops, allowance 6", 6, 6, [at(quiet(9), 2), at(stops(quiet(2)), 2), at(quiet(9), 2)]),
    ("the second of three stops, allowance 7", 7, 7, [at(quiet(9), 3), at(stops(quiet(2)), 2), at(quiet(9), 2)]),
    ("the second of three stops, allowance 8", 8, 8, [at(quiet(9), 3), at(stops(quiet(2)), 2, 13), at(quiet(9), 3)]),
    ("the second of three stops, allowance 12", 12, 12, [at(quiet(9), 5), at(stops(quiet(2)), 2, 13), at(quiet(9), 5)]),
    ("the second of three stops, allowance 13", 13, 13, [at(quiet(9), 6), at(stops(quiet(2)), 2, 13), at(quiet(9), 5)]),
    ("the first stops in the pass that spends the last tick", 3, 3, [at(stops(quiet(1)), 1, 13), at(quiet(2), 2)]),
    ("the last would stop in the pass that spends the last tick", 3, 3, [at(quiet(2), 2), at(stops(quiet(1)), 1)]),
    ("the last stops, one tick left", 4, 3, [at(quiet(2), 2), at(stops(quiet(1)), 1, 13)]),
    ("two stop in a row", 2, 2, [at(stops(quiet(1)), 1), at(idle(FRESH, 2), 0, 13), at(idle(FRESH, 2), 0, 13), at(DUE, 1)]),
    ("the allowance is spent between two stops", 1, 1, [at(idle(FRESH, 2), 0, 13), at(DUE, 1), at(idle(FRESH, 2), 0)]),
    # a refused state
    *((f"14: {name}", 1, 1, [at(idle(state, 0), 0, 14), at(quiet(1), 1)]) for name, state in REFUSED),
    ("a state refused 14, allowance 0", 0, 0, [at(idle(BAD, 0), 0)]),
    ("a state refused 14 after the allowance is spent", 1, 1, [at(quiet(1), 1), at(idle(BAD, 0), 0)]),
    ("14 before 13", ALL, 0, [at(idle(BAD, 2), 0, 14)]),
    ("14 by an age before 13", ALL, 0, [at(idle((1, {}, {0: 65536}), 2), 0, 14)]),
    ("13 of a good state", ALL, 0, [at(idle((1, {}), 2), 0, 13)]),
    ("14 and 13 of two stations", ALL, 1, [at(idle(BAD, 0), 0, 14), at(stops(quiet(1)), 1, 13)]),
]

# of UNENTERED: power-on with event 0, and block 1 with event 0
UNENTERED_STOPS = [
    ("15 at the first tick", 1, 1, [at(idle(FRESH, 1), 0, 15), at(quiet(1), 1)]),
    ("15 at the third tick", ALL, 4, [at(stops(quiet(2), 1), 2, 15), at(quiet(2), 2)]),
    ("15 at the third tick, allowance 4", 4, 4, [at(stops(quiet(2), 1), 2), at(quiet(2), 2)]),
    ("15 at the third tick, allowance 5", 5, 5, [at(stops(quiet(2), 1), 2, 15), at(quiet(3), 3)]),
    ("15 at a tick, allowance 0", 0, 0, [at(idle(FRESH, 1), 0)]),
    ("15 at a tick after the allowance is spent", 1, 1, [at(quiet(1), 1), at(idle(FRESH, 1), 0)]),
    ("15 at a tick, what follows is not served", ALL, 0, [at(idle(FRESH, 1, 0), 0, 15)]),
    ("13 before 15", ALL, 0, [at(idle(FRESH, 3), 0, 13)]),
    ("13 before 15, block 1", ALL, 0, [at(idle(MIDDLE, 3), 0, 13)]),
    ("14 before 15", ALL, 0, [at(idle((0, {}, {0: 1}), 1), 0, 14)]),
    ("14 before 13 and 15", ALL, 0, [at(idle((0, {1: 1}), 3), 0, 14)]),
    ("13, 14 and 15 of three stations", ALL, 1,
     [at(idle(FRESH, 2), 0, 13), at(idle(BAD, 0), 0, 14), at(idle(MIDDLE, 1), 0, 15), at(quiet(1), 1)]),
]

# passed over
LEFT = [
    *((f"lent with mark {mark}", ALL, 2, [at(LINE, 0, mark, lent=mark), at(STAYS, 2)]) for mark in (1, 13, 14, 15, 77, TOP)),
    ("lent with mark 77 and a refused state", ALL, 2, [at(idle(BAD, 0), 0, 77, lent=77), at(STAYS, 2)]),
    ("lent with mark 13 and an illegal set", ALL, 2, [at(idle(FRESH, 2), 0, 13, lent=13), at(STAYS, 2)]),
    ("lent with mark 15 and a legal set", 1, 1, [at(LINE, 0, 15, lent=15), at(STAYS, 1)]),
    ("all lent with a mark", ALL, 0, [at(LINE, 0, 13, lent=13), at(HELD, 0, 1, lent=1)]),
    ("a mark in the middle of its part", ALL, 2, [at(HELD, 4, 77, before=4, lent=77), at(STAYS, 2)]),
    ("finished", ALL, 2, [at(idle(MIDDLE), 2, before=2), at(STAYS, 2)]),
    ("finished, with a mark", ALL, 2, [at(idle(MIDDLE), 2, 13, before=2, lent=13), at(STAYS, 2)]),
    ("finished, with a refused state", ALL, 2, [at(idle(BAD), 2, before=2), at(STAYS, 2)]),
    ("one past its end", ALL, 2, [at(idle(MIDDLE, 0, 0), 3, position=3), at(STAYS, 2)]),
    ("one past its end, with a refused state", ALL, 2, [at(idle(BAD, 0, 0), 3, position=3), at(STAYS, 2)]),
    ("far past its end", ALL, 2, [at(idle(FRESH, 0, 0), TOP, position=TOP), at(STAYS, 2)]),
    ("past its end, where the next part has sets", ALL, 2, [at(idle(FRESH, 0), 2, position=2), at(STAYS, 2)]),
    ("no set", ALL, 2, [at(idle(FRESH), 0), at(STAYS, 2)]),
    ("no set, with a refused state", ALL, 2, [at(idle(BAD), 0), at(STAYS, 2)]),
    ("no set, with a mark", ALL, 2, [at(idle(FRESH), 0, 99, lent=99), at(STAYS, 2)]),
    ("nobody has work", ALL, 0, [at(idle(MIDDLE), 2, before=2), at(idle(FRESH), 0), at(LINE, 0, 14, lent=14)]),
    ("one set is left", ALL, 1, [at(DUE, 4, before=3)]),
]

# words and states
OWN = [
    ("in the middle of its part", ALL, 2, [at(STAYS, 4, before=2)]),
    ("in the middle of its part, an illegal set follows", ALL, 2, [at(stops(STAYS), 4, 13, before=2)]),
    ("two in the middle of their parts", 3, 3, [at(STAYS, 4, before=2), at(LEAVES, 8, before=7)]),
    ("spare output words", ALL, 5, [at(LINE[:4], 3, spare=1), at(quiet(2), 2, spare=4)]),
    ("spare output words for a set more", ALL, 5, [at(LINE[:4], 3, spare=5), at(quiet(2), 2, spare=7)]),
    ("spare output words and no set", ALL, 2, [at(idle(FRESH), 0, spare=4), at(quiet(2), 2)]),
    ("two lists from one state", ALL, 5, [at(STAYS, 2), at(LEAVES, 3)]),
    ("two lists from one state, the other way round", ALL, 5, [at(LEAVES, 3), at(STAYS, 2)]),
    ("one list from one state twice", ALL, 6, [at(LEAVES, 3), at(LEAVES, 3)]),
    ("one list from one state, one is a tick ahead", 3, 3, [at(LEAVES, 2), at(LEAVES, 1)]),
    ("ages reach their limit", ALL, 3, [at(OLD, 3)]),
    ("ages reach their limit, one tick each", 2, 2, [at(OLD, 1), at(OLD, 1)]),
    ("an age stays with its station", ALL, 8, [at(OLD, 3), at(LEAVES, 3), at(STAYS, 2)]),
    ("a reading that does not fit its source's age", ALL, 1, [at(DUE, 1)]),
    ("a mode left and entered again", ALL, 9, [at(HELD, 3), at(LINE, 6)]),
    ("an illegal set of another station", ALL, 9, [at(stops(HELD), 3, 13), at(LINE, 6)]),
]


# ---------------------------------------------------------------- parts

def one_each(count):
    """Parts of one set each, one after the other."""
    return [(i, 1, 5 * i, 5) for i in range(count)]


# a name, the refusal, the ticks spent, the sets and words of the lists, start and length of the parts of each station
COUNTS = [
    ("no stations", 18, 0, 3, 15, []),
    ("no stations, nothing lent", 18, 0, 0, 0, []),
    ("one station", 0, 1, 1, 5, one_each(1)),
    ("63 stations", 0, 63, 63, 315, one_each(63)),
    ("64 stations", 0, 64, 64, 320, one_each(64)),
    ("65 stations", 18, 0, 65, 325, one_each(65)),
    ("65 stations without a set", 18, 0, 0, 0, [(0, 0, 0, 0)] * 65),
    ("64 stations without a set", 0, 0, 0, 0, [(0, 0, 0, 0)] * 64),
    ("65 stations, two share words", 18, 0, 65, 325, one_each(64) + [(0, 1, 0, 5)]),
    ("65 stations, the last ends past its list", 18, 0, 64, 320, one_each(65)),
    ("64 stations, the last ends past its list", 19, 0, 63, 320, one_each(64)),
    ("64 stations, the first and the last share a set", 19, 0, 64, 320, one_each(63) + [(0, 1, 315, 5)]),
    ("64 stations, the last two share a word", 19, 0, 64, 320, one_each(63) + [(63, 1, 314, 5)]),
]
PARTS = [
    ("one after the other", 0, 4, 4, 20, [(0, 2, 0, 10), (2, 2, 10, 10)]),
    ("the second comes first in both lists", 0, 4, 4, 20, [(2, 2, 10, 10), (0, 2, 0, 10)]),
    ("the second comes first in the output list", 0, 4, 4, 20, [(0, 2, 10, 10), (2, 2, 0, 10)]),
    ("gaps between them", 0, 3, 9, 40, [(1, 2, 3, 12), (5, 1, 17, 5)]),
    # sets shared
    ("they share a set", 19, 0, 4, 20, [(0, 2, 0, 10), (1, 2, 10, 10)]),
    ("they share a set, the second comes first", 19, 0, 4, 20, [(1, 2, 10, 10), (0, 2, 0, 10)]),
    ("they have the same sets", 19, 0, 4, 20, [(0, 2, 0, 10), (0, 2, 10, 10)]),
    ("they have the same set", 19, 0, 1, 10, [(0, 1, 0, 5), (0, 1, 5, 5)]),
    ("a set inside another's sets", 19, 0, 4, 25, [(0, 4, 0, 20), (1, 1, 20, 5)]),
    ("another's sets around a set", 19, 0, 4, 25, [(1, 1, 20, 5), (0, 4, 0, 20)]),
    ("the last set is another's", 19, 0, 4, 25, [(0, 4, 0, 20), (3, 1, 20, 5)]),
    ("the first set is another's", 19, 0, 4, 25, [(0, 4, 0, 20), (0, 1, 20, 5)]),
    ("the set after the last is another's", 0, 5, 5, 25, [(0, 4, 0, 20), (4, 1, 20, 5)]),
    ("the first and the third share a set", 19, 0, 5, 25, [(0, 2, 0, 10), (2, 2, 10, 10), (1, 1, 20, 5)]),
    ("the second and the third share a set", 19, 0, 5, 25, [(0, 2, 0, 10), (2, 2, 10, 10), (3, 1, 20, 5)]),
    ("three apart", 0, 5, 5, 25, [(0, 2, 0, 10), (2, 2, 10, 10), (4, 1, 20, 5)]),
    # output words shared
    ("they share a word", 19, 0, 4, 20, [(0, 2, 0, 10), (2, 2, 9, 10)]),
    ("they share a word, the second comes first", 19, 0, 4, 20, [(2, 2, 9, 10), (0, 2, 0, 10)]),
    ("they share a spare word", 19, 0, 4, 21, [(0, 2, 0, 11), (2, 2, 10, 10)]),
    ("a spare word lies between them", 0, 4, 4, 21, [(0, 2, 0, 11), (2, 2, 11, 10)]),
    ("they have the same words", 19, 0, 2, 10, [(0, 1, 0, 5), (1, 1, 0, 5)]),
    ("words inside another's words", 19, 0, 2, 20, [(0, 1, 0, 20), (1, 1, 7, 5)]),
    ("another's words around words", 19, 0, 2, 20, [(1, 1, 7, 5), (0, 1, 0, 20)]),
    ("the first and the third share a word", 19, 0, 3, 15, [(0, 1, 0, 5), (1, 1, 5, 5), (2, 1, 4, 6)]),
    ("words of one that has no set are another's", 19, 0, 1, 5, [(0, 1, 0, 5), (1, 0, 4, 1)]),
    # empty parts
    ("an empty part inside another's sets", 0, 4, 4, 20, [(0, 4, 0, 20), (2, 0, 20, 0)]),
    ("an empty part inside another's sets, the other way round", 0, 4, 4, 20, [(2, 0, 20, 0), (0, 4, 0, 20)]),
    ("an empty part inside another's words", 0, 4, 4, 20, [(0, 4, 0, 20), (4, 0, 7, 0)]),
    ("an empty part inside another's words, the other way round", 0, 4, 4, 20, [(4, 0, 7, 0), (0, 4, 0, 20)]),
    ("equal empty parts", 0, 0, 4, 20, [(2, 0, 7, 0), (2, 0, 7, 0)]),
    ("equal empty parts of empty lists", 0, 0, 0, 0, [(0, 0, 0, 0), (0, 0, 0, 0)]),
    ("empty parts where others begin", 0, 4, 4, 20, [(0, 0, 0, 0), (0, 4, 0, 20), (0, 0, 0, 0)]),
    ("an empty part at the end of its list", 0, 4, 4, 20, [(0, 4, 0, 20), (4, 0, 20, 0)]),
    ("an empty part past the sets", 19, 0, 4, 20, [(0, 4, 0, 20), (5, 0, 20, 0)]),
    ("an empty part past the words", 19, 0, 4, 20, [(0, 4, 0, 20), (4, 0, 21, 0)]),
    # the end of a list
    ("the sets end with the list", 0, 4, 4, 21, [(0, 4, 0, 20)]),
    ("the sets end one past the list", 19, 0, 3, 21, [(0, 4, 0, 20)]),
    ("the sets begin late and end with the list", 0, 3, 4, 20, [(1, 3, 0, 20)]),
    ("the sets begin late and end one past the list", 19, 0, 4, 20, [(1, 4, 0, 20)]),
    ("a set where the list has ended", 19, 0, 4, 20, [(4, 1, 0, 20)]),
    ("the words end one past the list", 19, 0, 4, 20, [(0, 4, 0, 21)]),
    ("the words begin late and end with the list", 0, 4, 4, 21, [(0, 4, 1, 20)]),
    ("the words begin late and end one past the list", 19, 0, 4, 20, [(0, 4, 1, 20)]),
    ("the second ends one past the sets", 19, 0, 3, 20, [(0, 2, 0, 10), (2, 2, 10, 10)]),
    ("the second ends one past the words", 19, 0, 4, 20, [(0, 2, 0, 10), (2, 2, 11, 10)]),
    ("the first ends one past the words", 19, 0, 4, 20, [(0, 2, 11, 10), (2, 2, 0, 10)]),
    # starts and lengths near 2^32
    ("2 sets from 2^32 - 1 on", 19, 0, 4, 20, [(TOP, 2, 0, 10)]),
    ("1 set from 2^32 - 1 on", 19, 0, 4, 20, [(TOP, 1, 0, 10)]),
    ("no set from 2^32 - 1 on", 19, 0, 4, 20, [(TOP, 0, 0, 10)]),
    ("4 sets from 2^32 - 2 on", 19, 0, 4, 20, [(TOP - 1, 4, 0, 20)]),
    ("2^32 - 1 sets from 1 on", 19, 0, 4, 20, [(1, TOP, 0, 20)]),
    ("2^32 - 1 sets from 2^32 - 1 on", 19, 0, 4, 20, [(TOP, TOP, 0, 20)]),
    ("11 words from 2^32 - 1 on", 19, 0, 4, 20, [(0, 2, TOP, 11)]),
    ("20 words from 2^32 - 10 on", 19, 0, 4, 20, [(0, 4, TOP - 9, 20)]),
    ("2^32 - 1 words from 1 on", 19, 0, 4, 20, [(0, 4, 1, TOP)]),
    ("2^32 - 1 words", 19, 0, 4, 20, [(0, 4, 0, TOP)]),
    # 5 words for each set
    ("10 words for 2 sets", 0, 2, 4, 20, [(0, 2, 0, 10)]),
    ("9 words for 2 sets", 19, 0, 4, 20, [(0, 2, 0, 9)]),
    ("11 words for 2 sets", 0, 2, 4, 20, [(0, 2, 0, 11)]),
    ("4 words for a set", 19, 0, 4, 20, [(0, 1, 0, 4)]),
    ("no word for a set", 19, 0, 4, 20, [(0, 1, 0, 0)]),
    ("4 words for no set", 0, 0, 4, 20, [(0, 0, 0, 4)]),
    ("9 words for 2 sets of the second", 19, 0, 4, 20, [(0, 2, 0, 10), (2, 2, 10, 9)]),
    ("9 words for 2 sets of the first", 19, 0, 4, 20, [(0, 2, 0, 9), (2, 2, 10, 10)]),
    ("9 words for 2 sets of the first, 11 of the second", 19, 0, 4, 20, [(0, 2, 0, 9), (2, 2, 9, 11)]),
]
# what is refused of any station, beside what is just good: with no turn to come
JUDGED = [case for case in PARTS if case[0] in (
    "one after the other", "they share a set", "they share a word", "the sets end one past the list", "the sets end with the list",
    "the words end one past the list", "9 words for 2 sets", "10 words for 2 sets", "an empty part inside another's sets")]
UNSOUND_PARTS = [(f"15: {name}", 15, *lists) for name, _, *lists in [
    ("no stations", 18, 0, 3, 15, []),
    ("65 stations", 18, 0, 65, 325, one_each(65)),
    ("parts that share a set", 19, 0, 4, 20, [(0, 2, 0, 10), (1, 2, 10, 10)]),
    ("parts past their lists", 19, 0, 0, 0, [(0, 2, 0, 10)]),
    ("parts that are good", 0, 0, 4, 20, [(0, 2, 0, 10), (2, 2, 10, 10)])]]


# ---------------------------------------------------------------- the stream

def state_after(run, ticks):
    return run[ticks][2] if ticks else run[0]


def state_words(state):
    """The block, the 64 readings, the 32 ages."""
    place, readings, *ages = state
    ages = ages[0] if ages else {}
    return [place] + [readings.get(t, 0) for t in range(64)] + [ages.get(m, 0) for m in range(32)]


def written(out, start, run, ticks):
    """The words of the run's first ticks, from there on."""
    for p, (_, (*sets, took), _) in enumerate(run[1:ticks + 1]):
        out[start + 5 * p:start + 5 * p + 5] = [*sets, took % 2 ** 32, took >> 32]


def answered(name, refusal, allowance, inputs, out, before, spent, after):
    """A case and its answer: the output words after, the stations' numbers before, position, mark and state after."""
    numbers = [16, allowance, len(inputs), *inputs, len(out), len(before), *(x for lent in before for x in lent)]
    shown = [x for position, mark, state in after for x in (position, mark, digest(state_words(state)))]
    return (name, refusal, numbers), [refusal, spent, digest(out), *shown]


def call_case(name, allowance, spent, stations, last_first=False):
    """A call that is not refused; the parts stand one after the other."""
    inputs, before, after, writes, words = [], [], [], [], 0
    for run, to, mark, earlier, position, lent, spare in stations[::-1] if last_first else stations:
        sets = [2] * earlier + [given for given, *_ in run[1:]]
        part = [len(inputs), len(sets), words, 5 * len(sets) + spare]
        before.append([*state_numbers(run[0]), position, lent, *part])
        after.append((to, mark, state_after(run, to - position)))
        writes.append((words + 5 * position, run, to - position))
        inputs += sets
        words += part[3]
    if last_first:
        before, after = before[::-1], after[::-1]
    out = [TOP] * words
    for write in writes:
        written(out, *write)
    return answered(name, 0, allowance, inputs, out, before, spent, after)


def parts_case(name, refusal, spent, sets, words, parts, allowance=ALL, mark=0, finished=False):
    """Fresh stations without an event: each gets its whole part, or nothing where the call is refused or no turn comes."""
    out, before, after = [TOP] * words, [], []
    idles = refusal or mark or finished or not allowance
    for start, length, start_out, words_out in parts:
        position = length if finished else 0
        ticks = 0 if idles else length
        before.append([*state_numbers(FRESH), position, mark, start, length, start_out, words_out])
        after.append((position + ticks, mark, state_after(quiet(ticks), ticks)))
        written(out, start_out, quiet(ticks), ticks)
    return answered(name, refusal, allowance, [0] * sets, out, before, 0 if idles else spent, after)


def judged_cases():
    for name, *case in COUNTS[:1] + COUNTS[4:6] + JUDGED:
        yield parts_case(f"{name}, allowance 0", *case, allowance=0)
        yield parts_case(f"{name}, allowance 1, stopped", *case, allowance=1, mark=13)
        yield parts_case(f"{name}, finished", *case, finished=True)


def cases():
    """Each table brought, and its cases."""
    yield EXAMPLE, [call_case(*case) for case in PASSES + STOPS + LEFT + OWN]
    yield UNENTERED, [call_case(*case) for case in UNENTERED_STOPS]
    yield EXAMPLE, [parts_case(*case) for case in COUNTS + PARTS] + list(judged_cases())
    yield UNSOUND, [parts_case(*case, allowance=most) for most in (0, ALL) for case in UNSOUND_PARTS]
    yield [], [parts_case(*case) for case in UNSOUND_PARTS]


def stream():
    for table, answers in cases():
        brings = [24, len(table), *table]
        for (name, refusal, numbers), answer in answers:
            yield (name, "stations", refusal, brings + numbers), answer
            brings = []


def main(given):
    for (name, word, refusal, numbers), answer in stream():
        if given == ["--refusals"]:
            print(word, refusal, name)
        elif given == ["--answers"]:
            print(word, *answer)
        else:
            print(*numbers)


if __name__ == "__main__":
    main(sys.argv[1:])
