"""Cases of tables that came from elsewhere, checked against a sheet: faithful ones, and what breaks one rule of them.

    foreign_tables.py               the cases, as the conformance program reads them, without the 0 that ends a stream
    foreign_tables.py --refusals    for each answer its word, the refusal that the documents give, and the case's name
"""

import sys

from directed_cases import (BROKEN, EXAMPLE, THREE, TOP, after, arrow, atomic, check_case, clocks, compile_case, entered,
                            off, on, sheet)
from hostile_tables import EXAMPLE as OURS, LAPSES, TABLES, block, example, table, timer


def blocks_in(words):
    """The blocks of a table of sound layout."""
    pairs = 4 + words[2]
    return [words[words[at]:words[at] + words[at + 1]] for at in range(pairs, pairs + 2 * words[3], 2)]


def again(words, blocks):
    """The table with these blocks in place of its own."""
    return table(words[1], words[4:4 + words[2]], *blocks)


def leading(each, new):
    """A block whose cells lead to the blocks with the new numbers."""
    return each[:3] + [new[w] if at % 6 == 0 else w for at, w in enumerate(each[3:])]


def ordered(words, order, new=None):
    """The table with block order[b] as block b; its cells lead to the same blocks, or by the numbers given."""
    new = new or {old: at for at, old in enumerate(order)}
    blocks = blocks_in(words)
    return again(words, [leading(blocks[old], new) for old in order])


def cell(following, entered, exited, active, taken=0):
    return [following, entered, exited, active, taken % 2 ** 32, taken >> 32]


def resting(number, set, cells):
    """A block whose cells all stay in it."""
    return block(set, 0, *[cell(number, 0, 0, set)] * cells)


# ---------------------------------------------------------------- tables of few blocks

# one mode, without transition: power-on, and the only set
ONE = sheet(0, [atomic()])
ONE_TABLE = table(0, [], block(0, 0, cell(1, 1, 0, 1)), resting(1, 1, 1))
ONE_TABLE_OF_TWO_INPUTS = table(1, [], block(0, 0, *[cell(1, 1, 0, 1)] * 2), resting(1, 1, 2))

# three modes, of which power-on reaches mode 1 only
REST = table(1, [0, 0], block(0, 0, *[cell(1, 3, 0, 3)] * 2), resting(1, 3, 2))
REST_OF_ONE_TIMER = table(0, [0], block(0, 0, cell(1, 3, 0, 3)), resting(1, 3, 1))
UNSURE = sheet(1, THREE, arrow(2, 1, on(0)), arrow(2, 3, on(0)))
UNEASY = sheet(1, THREE, arrow(2, 3, off(0)), arrow(3, 2, off(0)))
AT_ONCE = sheet(0, THREE, arrow(2, 3, after(0)))
CALM = sheet(1, THREE, arrow(2, 3, on(0)), arrow(3, 2, entered(2)))


def beside(words, *blocks):
    return again(words, blocks_in(words) + list(blocks))


STAYS = cell(2, 0, 0, 5)

# a name, the refusal, the sheet, the table
FOREIGN = [
    ("our own table", 0, EXAMPLE, OURS),
    ("two blocks in another order", 0, EXAMPLE, ordered(OURS, [0, 2, 1])),
    ("two blocks in another order, next blocks by their old numbers", 17, EXAMPLE,
     ordered(OURS, [0, 2, 1], {1: 1, 2: 2})),
    ("next blocks exchanged", 17, EXAMPLE, ordered(OURS, [0, 1, 2], {1: 2, 2: 1})),
    ("one mode", 0, ONE, ONE_TABLE),
    ("a table of a larger k", 17, ONE, ONE_TABLE_OF_TWO_INPUTS),
    ("a table of a smaller k", 17, sheet(1, [atomic()]), ONE_TABLE),
    ("a table of another T", 17, ONE, table(0, [0], *blocks_in(ONE_TABLE))),
    ("block 0 alone", 15, ONE, table(0, [], block(0, 0, cell(1, 1, 0, 1)))),
    ("no word", 15, ONE, []),
    # timer words
    ("another delay", 17, EXAMPLE, example({5: timer(2, 3)})),
    ("another source", 17, EXAMPLE, example({5: timer(1, 2)})),
    ("a timer word of 0, the timer runs", 15, EXAMPLE, example({5: 0})),
    ("a timer that is none", 17, EXAMPLE, example({4: timer(1, 1)})),
    # masks
    ("a set of two children of a serial mode, whose cells stay", 17, CALM, beside(REST, resting(2, 11, 2))),
    ("the same as block 1", 17, CALM,
     again(REST, [leading(blocks_in(REST)[0], {1: 2}), resting(1, 11, 2), resting(2, 3, 2)])),
    ("the set of the root alone, whose cells stay", 17, CALM, beside(REST, resting(2, 1, 2))),
    ("a set with a bit at n, whose cells stay", 17, CALM, beside(REST, resting(2, 19, 2))),
    ("a mask without the root", 17, EXAMPLE, example({27: 2})),
    ("a mask of the root alone", 17, EXAMPLE, example({27: 1})),
    ("a mask of two children of a serial mode", 17, EXAMPLE, example({27: 7})),
    ("a mask with a bit at n", 17, EXAMPLE, example({27: 11})),
    ("a mask with bit 31", 17, EXAMPLE, example({27: 3 + 2 ** 31})),
    ("block 0 has a mask", 15, EXAMPLE, example({12: 3})),
    ("a block twice", 17, EXAMPLE, beside(OURS, blocks_in(OURS)[1])),
    ("a block twice, each led to", 17, EXAMPLE,
     again(OURS, blocks_in(OURS)[:2] + [leading(blocks_in(OURS)[2], {1: 3, 2: 2}), blocks_in(OURS)[1]])),
    # timers
    ("a timer that does not run in the set", 17, EXAMPLE,
     again(OURS, [blocks_in(OURS)[0], block(3, 2, *[cell(1, 0, 0, 3), cell(2, 4, 2, 7, 1)] * 2), blocks_in(OURS)[2]])),
    ("a timer is missing", 17, EXAMPLE,
     again(OURS, blocks_in(OURS)[:2] + [block(5, 0, *[cell(2, 0, 0, 5)] * 2)])),
    # a set that power-on never reaches
    ("a set never reached", 0, CALM, beside(REST, resting(2, 9, 2))),
    ("a set never reached whose cell is another tick's", 17, CALM,
     beside(REST, block(9, 0, cell(2, 0, 0, 9), cell(2, 0, 0, 13)))),
    ("a set never reached that leads to one that is missing", 17, CALM,
     beside(REST, block(5, 0, STAYS, cell(2, 8, 4, 13, 1)))),
    ("two sets never reached", 0, CALM,
     beside(REST, block(5, 0, STAYS, cell(3, 8, 4, 13, 1)), resting(3, 9, 2))),
    ("a set never reached, ambiguous, that stays", 17, UNSURE, beside(REST, block(5, 0, STAYS, STAYS))),
    ("a set never reached, ambiguous, that takes one", 17, UNSURE, beside(REST, block(5, 0, STAYS, cell(1, 2, 4, 7, 1)))),
    ("a set never reached, ambiguous, that takes the other", 17, UNSURE,
     beside(REST, block(5, 0, STAYS, cell(3, 8, 4, 13, 2)), resting(3, 9, 2))),
    ("our own table where a set never reached is ambiguous", 0, UNSURE, REST),
    ("a set never reached, restless", 17, UNEASY, beside(REST, block(5, 0, STAYS, STAYS))),
    ("our own table where a set never reached is restless", 0, UNEASY, REST),
    ("a set never reached with a source of delay 0", 0, AT_ONCE,
     beside(REST_OF_ONE_TIMER, block(5, 0, cell(3, 8, 4, 13, 1)), resting(3, 9, 1))),
    ("it does not take it", 17, AT_ONCE, beside(REST_OF_ONE_TIMER, block(5, 0, cell(2, 0, 0, 5)))),
]

# of each cell of our own table a word that is not the tick's
CELLS = [15, 21, 30, 36, 45, 51, 57, 63]
FOREIGN += [(f"word {at + word} of the example's table", 17, EXAMPLE, example({at + word: TOP}))
            for at in CELLS for word in range(1, 6)]
FOREIGN += [(f"next block at word {at} of the example's table", 17, EXAMPLE, example({at: 3 - OURS[at]})) for at in CELLS]


def accept_case(name, refusal):
    return name, "foreign", refusal, [14]


def bringing(words):
    return [24, len(words), *words]


def foreign_cases():
    for name, refusal, words, brought in FOREIGN:
        yield check_case(name, 0, words)
        yield name, "foreign", refusal, bringing(brought) + [14]


def hostile_cases():
    """Tables of any layout against the example's sheet."""
    yield check_case("hostile tables", 0, EXAMPLE)
    for name, refusal, words in TABLES:
        yield name, "foreign", 0 if words == OURS else refusal or 17, bringing(words) + [14]
    for name, _, words in LAPSES:
        yield name, "foreign", 17, bringing(words) + [14]


def due_cases():
    """Two timers of delays 1 and 2: only the first is ever due by itself in the first block. All its cells count."""
    yield check_case("two timers", 0, clocks(2))
    for c in range(4):
        yield compile_case("two timers", 0, 200, 8)
        yield accept_case("two timers", 0)
        yield f"two timers, cell {c} of block 1", "foreign", 17, [5, 28 + 6 * c + 3, TOP, 14]


def broken_cases():
    """1 to 6 before 15 and 17."""
    for refusal, words in BROKEN.items():
        yield check_case(f"{refusal} alone", refusal, words)
        yield f"{refusal} before 15", "foreign", refusal, bringing([]) + [14]
        yield f"{refusal} before 17", "foreign", refusal, bringing(OURS) + [14]


def stream():
    yield from foreign_cases()
    yield from hostile_cases()
    yield from due_cases()
    yield from broken_cases()


def main(words):
    for name, word, refusal, numbers in stream():
        print(word, refusal, name) if words == ["--refusals"] else print(*numbers)


if __name__ == "__main__":
    main(sys.argv[1:])
