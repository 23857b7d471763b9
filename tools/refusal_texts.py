"""Writes the texts of the program `refusals`, a semicolon between them, and the outside interpreter's answers.

    refusal_texts.py        (from the repository; shared/oracle stands beside it)
"""

import sys
from pathlib import Path

HERE = Path(__file__).resolve().parent.parent
sys.path.insert(0, str(HERE.parent / "shared" / "oracle"))
from modechart import Edition, asks_given, bench, compile_sheet  # noqa: E402

EDITION = Edition.of(asks_given((HERE / "tools" / "landed.txt").read_text().strip()))

EXAMPLE = [3, 1, 2, 1, 0, 1, 0, 0, 0, 0, 0, 0, 16, 4, 20, 4, 1, 2, 1, 0, 2, 1, 0, 2]


def text(sheet, *ticks):
    return " ".join(map(str, [len(sheet), *sheet, len(ticks), *ticks]))


def changed(words):
    return [words.get(place, word) for place, word in enumerate(EXAMPLE)]


def sheet(modes, k, records):
    """The words of a sheet, by its mode rows and records."""
    words = [len(modes), k, len(records), *(word for mode in modes for word in mode)]
    offset = len(words) + 2 * len(records)
    for record in records:
        words += [offset, len(record)]
        offset += len(record)
    return words + [word for record in records for word in record]


def regions(sizes, k, records, above=()):
    """A parallel mode, after the modes `above`, with a serial region per size; records(firsts) are its transitions."""
    top = len(above)
    firsts = [top + 1 + len(sizes) + sum(sizes[:r]) for r in range(len(sizes))]
    modes = [*above, (2, 0, 0)] + [(1, top, first) for first in firsts]
    modes += [(0, top + r + 1, 0) for r, size in enumerate(sizes) for _ in range(size)]
    return sheet(modes, k, records(firsts))


def steps(sizes, firsts):
    """Region r goes round, a step when event r is present, the next when it is absent."""
    return [[first + i, first + (i + 1) % size, 1 + i % 2, r]
            for r, (first, size) in enumerate(zip(firsts, sizes)) for i in range(size)]


def rings(sizes):
    return regions(sizes, len(sizes), lambda firsts: steps(sizes, firsts))


def full_table(*arrows):
    """Two rings of 9 and 17, whose table has 8,192 words in 154 blocks; each further arrow is a word more."""
    return regions([9, 17], 3, lambda firsts: [*steps([9, 17], firsts), *arrows])


ARROW = [3, 5, 1, 2, 2, 0]  # a short cut in the ring of 9: no set more
IDLE = [3, 7, 6, 27]        # one that waits for itself: it is never taken


def rings_left():
    """Five rings of four, which have 1,024 sets, left for a mode beside them on a sixth event."""
    return regions([4] * 5, 6, lambda firsts: steps([4] * 5, firsts) + [[2, 1, 1, 5]], above=[(1, 0, 2), (0, 0, 0)])


def longest(ticks):
    """A request of 2,403 sheet words: 32 modes, and 64 transitions with 16 terms each."""
    def record(source, target, *terms):
        return [source, target, *(terms * 16)[:32]]

    # a ring of 30: a step on event 0 from every second mode, on its absence from the others, on or back by event 1
    steps = [record(1 + m, 1 + (m + way) % 30, 1 + m % 2, 0, by, 1, 2, 2)
             for way, by in ((1, 1), (29, 2)) for m in range(30)]
    leaps = [record(m, m + 2, 1, 0, 1, 2) for m in (3, 5)]
    beside = [record(1, 31, 1, 0, 1, 2), record(31, 1, 2, 2)]
    modes = [(1, 0, 1)] + [(0, 0, 0)] * 31
    return text(sheet(modes, 3, steps + leaps + beside), *(5 if t % 7 == 0 else 3 - t % 2 for t in range(ticks)))


def timers(count):
    """As many timers at once."""
    return regions([2] * count, 0, lambda firsts: [
        row for first in firsts for row in ([first, first + 1, 0, 1], [first + 1, first, 0, 0])])


E = text(EXAMPLE)[:-2]      # sheet length and sheet

TEXTS = [
    ("the example", E + " 5 0 1 0 0 1"),
    ("no ticks: the header alone", E + " 0"),
    ("leading zeros, blanks and line feeds in any amount",
     "\n\n  00" + E.replace(" ", " " * 300 + "\n") + "\n\n" + "0" * 6000 + "2 00 0001  \n"),
    ("an empty text", ""),
    ("blanks alone", " \n "),
    ("a sheet of no words and no ticks", "0 0"),
    ("the sheet length alone", "0"),
    ("a number more", "0 0 0"),
    ("an input set missing", E + " 5 0 1 0 0"),
    ("an input set more", E + " 5 0 1 0 0 1 1"),
    ("a tab", E + "\t0"),
    ("a carriage return", E + " 0\r\n"),
    ("a sign", "-1 0"),
    ("a letter", E + " 0 x"),
    ("2^32 - 1 is a number", "1 4294967295 0"),
    ("2^32 is not", "1 4294967296 0"),
    ("2,403 sheet words", "2403" + " 0" * 2403 + " 0"),
    ("2,404 sheet words", "2404" + " 0" * 2404 + " 0"),
    ("1,024 ticks", E + " 1024" + " 2" * 1024),
    ("1,025 ticks", E + " 1025" + " 0" * 1025),
    ("as many sheet words as no text has", "4294967295 0"),
    ("1: head", text([0, 0, 0], 0)),
    ("2: mode row", text(changed({3: 3}), 0)),
    ("3: pair", text(changed({13: 5}), 0)),
    ("4: transition ends", text(changed({17: 1}), 0)),
    ("5: term", text(changed({19: 1}), 0)),
    ("6: shared ends", text(changed({20: 1, 21: 2, 22: 1, 23: 0}), 0)),
    ("six timers at once", text(timers(6), 0, 0, 0)),
    ("7: seven", text(timers(7), 0)),
    ("8: ambiguous", text([4, 1, 2, 1, 0, 1, 0, 0, 0, 0, 0, 0, 0, 0, 0, 19, 4, 23, 4, 1, 2, 1, 0, 1, 3, 1, 0], 0)),
    ("9: restless", text(changed({20: 2, 21: 1, 22: 1, 23: 0}), 0)),
    ("a table of several thousand words", text(rings([4, 4, 4]), 1, 3, 7)),
    ("a table of 8,192 words", text(full_table(), 1, 3, 7)),
    ("10: one of 8,193", text(full_table(ARROW), 1, 3, 7)),
    ("10: 1,024 sets are listed, and the table is too long", text(rings([4] * 5), 0)),
    ("11: 1,025 sets", text(rings_left(), 0)),
    ("21: an arrow that no cell takes", text(changed({22: 6, 23: 1}), 0)),
    ("21 before 10", text(full_table(ARROW, IDLE), 0)),
    ("13 at tick 2, after the lines of two ticks", E + " 4 0 1 2 0"),
    ("13 at tick 0, after the header", E + " 1 2"),
    ("2,403 sheet words and 1,024 ticks: 3,429 numbers, served", longest(1024)),
    ("a number more", longest(1024) + " 0"),
    ("a last number with a line feed after it", E + " 2 0 1\n"),
    ("a last number with the end of the input after it", E + " 2 0 1"),
]


def sizes_hold():
    """The charts above have the sets and words that their texts are named for, given room for them."""
    def sizes(words):
        compiled = compile_sheet(words, [0] * 400000, [0] * 4095, EDITION)
        return compiled.listed, compiled.length

    return (sizes(full_table()) == (153, 8192) and sizes(full_table(ARROW)) == (153, 8193)
            and sizes(rings([4] * 5))[0] == 1024 and sizes(rings_left())[0] == 1025)


def main():
    assert sizes_hold()
    folder = HERE / "crates" / "refusals"
    (folder / "stdin").write_text(";".join(asked for _, asked in TEXTS))
    (folder / "stdout").write_text("".join(str(bench(asked.encode(), EDITION)) for _, asked in TEXTS))


if __name__ == "__main__":
    main()
