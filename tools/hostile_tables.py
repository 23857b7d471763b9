"""Cases of tables that whoever brings a table may bring, one run of each: a good one, then what breaks one rule of it.

    hostile_tables.py               the cases, as the conformance program reads them, without the 0 that ends a stream
    hostile_tables.py --refusals    for each answer its word, the refusal that document 01 gives, and the case's name

A run of such a table is answered like any other: 15 before the run or at a tick, and nothing else.
"""

import sys

TOP = 2 ** 32 - 1
EXAMPLE = [1, 1, 2, 3, 0, 131074, 12, 15, 27, 15, 42, 27,
           0, 0, 0, 1, 3, 0, 3, 0, 0, 2, 7, 2, 7, 1, 0,
           3, 0, 0, 1, 0, 0, 3, 0, 0, 2, 4, 2, 7, 1, 0,
           5, 2, 0, 2, 0, 0, 5, 0, 0, 2, 0, 0, 5, 0, 0, 1, 2, 4, 7, 2, 0, 2, 6, 6, 7, 3, 0]


def example(words, length=69):
    """The example's table with words changed, cut or made longer."""
    table = EXAMPLE + [TOP] * 11
    for place, value in words.items():
        table[place] = value
    return table[:length]


def timer(source, delay):
    return source * 65536 + delay


def cell(following, entered=0):
    """A cell with its next block; exited, active and taken are any words."""
    return [following, entered, 2, 3, 4, 5]


def block(mask, timers, *cells):
    """A block; timers is a set of transitions as one number."""
    return [mask, timers % 2 ** 32, timers >> 32] + sum(cells, [])


def table(k, timers, *blocks):
    """A table of these timer words and blocks, whose pairs fit the blocks as they are."""
    offset = 4 + len(timers) + 2 * len(blocks)
    words = [1, k, len(timers), len(blocks)] + timers
    for each in blocks:
        words += [offset, len(each)]
        offset += len(each)
    return words + [word for each in blocks for word in each]


START = block(0, 0, cell(1))                        # power-on without an event
STAY = block(1, 0, cell(1))
TICK = timer(3, 2)


def clock(timers, many, words=None, at_power_on=9):
    """Power-on, and a block that runs these timers, so many, of the table's 64 (or of the timer words given). Each of
    its cells stays and enters modes 0 and 3: the timers start again."""
    return table(0, [TICK] * 64 if words is None else words, block(0, 0, cell(1, at_power_on)),
                 block(1, timers, *[cell(1, 9)] * 2 ** many))


# 1 runs one timer; power-on enters its source, cell 0 of block 1 does not, cell 1 (due) enters it again or not
def lapsing(entered):
    return table(0, [TICK], block(0, 0, cell(1, 8)), block(1, 1, cell(1), cell(1, entered)))


FOUND = object()            # the table that the case before brought
FRESH = [0, 0]

# a name, the refusal, the table
TABLES = [
    ("the example's table", 0, example({})),
    # the head
    ("word 0 is 0", 15, example({0: 0})),
    ("word 0 is 2", 15, example({0: 2})),
    ("k is 6", 0, table(6, [], block(0, 0, *[cell(1)] * 64), block(1, 0, *[cell(1)] * 64))),
    ("k is 7", 15, table(7, [], block(0, 0, *[cell(1)] * 128), block(1, 0, *[cell(1)] * 128))),
    ("k is 7 in the example", 15, example({1: 7})),
    ("k is 2^32 - 1", 15, example({1: TOP})),
    ("T is 0", 0, table(0, [], START, STAY)),
    ("T is 64", 0, table(0, [0] * 64, START, STAY)),
    ("T is 65", 15, table(0, [0] * 65, START, STAY)),
    ("T is 65 in the example", 15, example({2: 65})),
    ("T is 2^32 - 1", 15, example({2: TOP})),
    ("B is 0", 15, table(0, [])),
    ("B is 0 in the example", 15, example({3: 0})),
    ("B is 1, the next block 1", 15, table(0, [], START)),
    ("B is 1, the next block 0", 15, table(0, [], block(0, 0, cell(0)))),
    ("B is 1 in the example", 15, example({3: 1})),
    ("B is 4,095 in a short slice", 15, example({3: 4095})),
    ("B is 4,096 in a short slice", 15, example({3: 4096})),
    ("B is 4,097 in a short slice", 15, example({3: 4097})),
    ("B is 2^32 - 1", 15, example({3: TOP})),
    ("B is 2^31, twice B wraps", 15, example({3: 2 ** 31})),
    # timer words
    ("a timer word of source 0 and delay 1", 0, table(0, [timer(0, 1)], START, STAY)),
    ("a timer word of source 31 and delay 65,535", 0, table(0, [timer(31, 65535)], START, STAY)),
    ("a timer word of source 32", 15, table(0, [timer(32, 1)], START, STAY)),
    ("a timer word of source 31 and delay 0", 15, table(0, [timer(31, 0)], START, STAY)),
    ("a timer word of all ones", 15, table(0, [TOP], START, STAY)),
    ("the last timer word of source 32", 15, table(0, [TICK, timer(32, 1)], START, STAY)),
    ("the last timer word of delay 0", 15, table(0, [TICK, timer(1, 0)], START, STAY)),
    ("the third timer word of source 32, with two blocks", 15, table(0, [TICK, TICK, timer(32, 1)], START, STAY)),
    ("a timer word of source 32 in the example", 15, example({5: timer(32, 2)})),
    # offsets near 2^32, and pairs that overlap, stand in another order or leave a gap
    ("offset of block 0 is 2^32 - 1", 15, example({6: TOP})),
    ("offset of block 1 is 2^32 - 1", 15, example({8: TOP})),
    ("offset of block 2 is 2^32 - 4, its cells would begin past 2^32", 15, example({10: TOP - 3})),
    ("offset of block 1 is 27 + 2^31", 15, example({8: 27 + 2 ** 31})),
    ("offset of block 0 is one too low", 15, example({6: 11})),
    ("block 1 begins where block 0 does", 15, example({8: 12})),
    ("block 2 begins inside block 1", 15, example({10: 30})),
    ("block 0 begins in the pairs", 15, example({6: 8})),
    ("pairs of two blocks exchanged", 15, [1, 0, 0, 3, 10, 9, 28, 9, 19, 9] + START + STAY + STAY),
    ("pairs swapped in the example", 15, example({8: 42, 9: 27, 10: 27, 11: 15})),
    ("block 1 stands where block 2 does", 15, [1, 0, 0, 3, 10, 9, 28, 9, 28, 9] + START + STAY + STAY),
    ("block 2 stands where block 1 does", 15, [1, 0, 0, 3, 10, 9, 19, 9, 19, 9] + START + STAY + STAY),
    ("a gap of one word after block 1", 15, example({10: 43}, 70)),
    ("a gap of one word before block 0", 15, [1, 0, 0, 2, 9, 9, 18, 9, 7] + START + STAY),
    # lengths
    ("length of block 0 wraps to 15 in 32 bits with offset 12", 15, example({6: 12, 7: 15 + 2 ** 31, 8: 27 + 2 ** 31})),
    ("length of block 2 is 2^32 - 1", 15, example({11: TOP})),
    ("length of block 2 ends at 2^32 + 69 less 2^32", 15, example({11: TOP - 41 + 27})),
    ("length of block 1 is 0", 15, example({9: 0})),
    ("length of block 1 is 2, less than a header", 15, example({9: 2, 10: 29})),
    ("the last block has a header and no cell", 15, table(0, [], START, block(1, 0))),
    ("the last block has a header and no cell, a word short", 15, table(0, [], START, block(1, 0))[:-1]),
    ("the last block is two words", 15, table(0, [], START, [1, 0])),
    ("the last block has a cell too many", 15, table(0, [], START, block(1, 0, cell(1), cell(1)))),
    ("block 0 has a cell too many", 15, table(0, [], block(0, 0, cell(1), cell(1)), STAY)),
    ("the last block is a word short", 15, table(0, [], START, STAY[:-1])),
    ("the last block is a word longer", 15, table(0, [], START, STAY + [0])),
    ("block 0 is a word longer", 15, table(0, [], START + [0], STAY)),
    ("with k = 1 a block has one cell", 15, table(1, [], START + START[3:], STAY)),
    # masks and block 0
    ("mask of the last block is 0", 15, table(0, [], START, block(0, 0, cell(1)))),
    ("mask of block 1 is 0, another follows", 15, table(0, [], START, block(0, 0, cell(1)), STAY)),
    ("two blocks of one mask", 0, table(0, [], START, block(1, 0, cell(2)), STAY)),
    ("mask of block 0 is 1", 15, table(0, [], block(1, 0, cell(1)), STAY)),
    ("block 0 runs a timer", 15, table(0, [TICK], block(0, 1, cell(1), cell(1)), STAY)),
    ("block 0 runs timer 32", 15, table(0, [TICK] * 33, block(0, 1 << 32, cell(1), cell(1)), STAY)),
    ("block 0 has mask and timer", 15, table(0, [TICK], block(1, 1, cell(1), cell(1)), STAY)),
    # timers
    ("no timer of 64", 0, clock(0, 0)),
    ("timers 0, 31, 32 and 63", 0, clock(1 | 1 << 31 | 1 << 32 | 1 << 63, 4)),
    ("six timers", 0, clock(0b111111, 6)),
    ("seven timers", 15, clock(0b1111111, 7)),
    ("six timers, low and high", 0, clock(7 | 7 << 40, 6)),
    ("seven timers, low and high", 15, clock(7 | 15 << 40, 7)),
    ("timer T - 1", 0, clock(2, 1, [TICK, TICK])),
    ("a timer at T", 15, clock(4, 1, [TICK, TICK])),
    ("a timer above T", 15, clock(8, 1, [TICK, TICK])),
    ("timer 63 with T = 63", 15, clock(1 << 63, 1, [TICK] * 63)),
    ("a timer without a delay", 15, clock(2, 1, [TICK, 0])),
    ("one of two timers without a delay", 15, clock(3, 2, [TICK, 0])),
    ("block 2 runs seven timers in the example", 15, example({43: 127})),
    ("block 2 runs transition 63 in the example", 15, example({43: 0, 44: 2 ** 31})),
    ("block 2 runs all 64 in the example", 15, example({43: TOP, 44: TOP})),
    # next blocks
    ("next block 1 in the example", 0, example({30: 1})),
    ("next block 0", 15, example({30: 0})),
    ("next block B - 1", 0, table(0, [], START, block(1, 0, cell(2)), STAY)),
    ("next block B", 15, table(0, [], START, block(1, 0, cell(3)), STAY)),
    ("block 0's next block is 0", 15, table(0, [], block(0, 0, cell(0)), STAY)),
    ("block 0's next block is B", 15, table(0, [], block(0, 0, cell(2)), STAY)),
    ("the last cell's next block is 0", 15, example({63: 0})),
    ("the last cell's next block is B", 15, example({63: 3})),
    ("the last cell's next block is 2^32 - 1", 15, example({63: TOP})),
    # lengths of the slice
    ("no word", 15, []),
    ("three words", 15, EXAMPLE[:3]),
    ("the head alone", 15, EXAMPLE[:4]),
    ("the head and the timer words", 15, EXAMPLE[:6]),
    ("the pairs' last word is missing", 15, EXAMPLE[:11]),
    ("the only pair is missing", 15, [1, 0, 2, 1, TICK, TICK]),
    ("the only pair's last word is missing", 15, [1, 0, 2, 1, TICK, TICK, 8]),
    ("the blocks are missing", 15, EXAMPLE[:12]),
    ("one word short", 15, example({}, 68)),
    ("one word more", 15, example({}, 70)),
]

# the same, of sound layout: at a tick a next timer has no reading left and was not entered, or just not that
LAPSES = [
    ("a due timer's source is entered again, each time", 0, lapsing(8)),
    ("a due timer's source is not entered: 15 at the third tick", 15, lapsing(0)),
    ("another mode than the due timer's source is entered", 15, lapsing(TOP - 8)),
    ("power-on leads to a timer without entering its source", 15, clock(1, 1, at_power_on=0)),
    ("power-on leads to a timer and enters other modes than its source", 15, clock(1, 1, at_power_on=TOP - 8)),
    ("a timer that did not run and is not entered", 15,
     table(0, [TICK], START, block(1, 0, cell(2)), block(3, 1, cell(2), cell(2)))),
    ("a timer that runs no more, then runs again unentered", 15,
     table(0, [TICK], block(0, 0, cell(1, 8)), block(1, 1, cell(2), cell(2)), block(3, 0, cell(1)))),
    ("one of two next timers has no reading left", 15,
     table(0, [TICK, timer(4, 3)], block(0, 0, cell(1, 24)), block(1, 3, *[cell(1, 8)] * 4))),
    ("a timer of source 0 and one of source 31", 0,
     table(0, [timer(0, 1), timer(31, 65535)], block(0, 0, cell(1, TOP)), block(1, 3, *[cell(1, 1 + 2 ** 31)] * 4))),
    ("a timer of source 31 that goes on, and is due once", 15,
     table(0, [timer(31, 3)], block(0, 0, cell(1, 2 ** 31)), block(1, 1, cell(1), cell(1)))),
    ("block 2 of the example is reached without entering the timer's source", 15, example({37: 3})),
    ("the example's due timer stays, unentered", 15, example({58: 0, 57: 2})),
]

# a name, the refusal, the table, the state, the input sets, the output words
RUNS = [
    ("15 before 14", 15, example({0: 2}), [1, 1, 0, 1], [0], 5),
    ("15 before 12", 15, FOUND, FRESH, [0], 4),
    ("15 before 13", 15, FOUND, FRESH, [2], 5),
    ("15 and no input set", 15, FOUND, FRESH, [], 0),
    ("14 before 12", 14, example({}), [1, 1, 0, 1], [0], 4),
    ("14 before 13", 14, FOUND, [1, 1, 0, 1], [2], 5),
    ("14 and no input set", 14, FOUND, [1, 1, 0, 1], [], 0),
    ("12 before 13", 12, FOUND, FRESH, [2], 4),
    ("12 before 15 at a tick", 12, example({37: 3}), FRESH, [1], 4),
    ("15 at the first tick", 15, example({22: 0}), FRESH, [1, 2], 10),
    ("13 before 15 at the tick", 13, FOUND, FRESH, [3], 5),
    ("13 at the tick before 15", 13, FOUND, FRESH, [2, 1], 10),
    ("15 at the third tick, 13 at the fourth", 15, example({37: 3}), FRESH, [0, 0, 1, 2], 20),
    ("13 at the third tick", 13, FOUND, FRESH, [0, 0, 3, 1], 20),
    ("a state whose timer lapses", 15, lapsing(0), [1, 1, 0, 1], [0, 0], 10),
    ("a state whose timer goes on, then lapses", 15, FOUND, [1, 1, 0, 2], [0, 0], 10),
    ("B is 4,095", 0, table(0, [], START, *[block(1, 0, [1, 0, 0, 0, 0, 0])] * 4094), FRESH, [0, 0], 10),
    ("B is 4,096", 0, table(0, [], START, *[block(1, 0, [1, 0, 0, 0, 0, 0])] * 4094, block(1, 0, cell(4095))),
     FRESH, [0, 0], 10),
    ("block 4,095 of 4,096", 0, FOUND, [4095, 0], [0, 0], 10),
    ("block 4,096 of 4,096", 14, FOUND, [4096, 0], [0, 0], 10),
    ("B is 4,097", 15, table(0, [], START, *[block(1, 0, [1, 0, 0, 0, 0, 0])] * 4096), FRESH, [0, 0], 10),
]


def stream():
    """Name, refusal, and the numbers of each case: the table where it is another one, and a run."""
    for name, refusal, words in TABLES + LAPSES:
        inputs = [0, 1, 0, 0, 1, 1] if words[1:2] == [1] else [0] * 6
        yield name, refusal, bringing(words) + running_case(FRESH, inputs, 30)
    for name, refusal, words, state, inputs, outputs in RUNS:
        yield name, refusal, bringing(words) + running_case(state, inputs, outputs)


def bringing(words):
    return [] if words is FOUND else [24, len(words), *words]


def running_case(state, inputs, outputs):
    return [4, *state, len(inputs), *inputs, outputs]


def main(words):
    for name, refusal, numbers in stream():
        print("table", refusal, name) if words == ["--refusals"] else print(*numbers)


if __name__ == "__main__":
    main(sys.argv[1:])
