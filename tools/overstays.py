"""Ticks of our operations, called by their C names, judged by the outside reading of Ask 11 (`overstays` of shared/oracle).

    (cd crates/native && rt lib) && python3 tools/overstays.py [SEED [CHARTS]]

On random charts that compile accepts, from power-on: the sheet run and the table run one tick a call, the table run with several
ticks a call, and two stations under small allowances over many calls, each station by its own ticks. The last line says how many
stays with a timeout were judged, how many of them lasted as long as the timeout allows, and how many were too long.
"""

import ctypes
import os
import random
import subprocess
import sys
import tempfile

HERE = os.path.dirname(os.path.abspath(__file__))
sys.path.insert(0, os.path.join(HERE, "..", "..", "shared", "oracle"))
from asks import overstays                                          # noqa: E402
from cases import random_chart                                      # noqa: E402
from modechart import parse                                         # noqa: E402

TICKS = 40
STATE_WORDS, STATION_WORDS = 97, 103


def library():
    """The archive of the crate `native` as a library that Python can load."""
    archive = os.path.join(HERE, "..", "crates", "native", "out", "libnative.a")
    with tempfile.TemporaryDirectory() as folder:
        path = os.path.join(folder, "native.so")
        subprocess.run(["gcc", "-shared", "-o", path, "-Wl,--whole-archive", archive, "-Wl,--no-whole-archive"], check=True)
        return ctypes.CDLL(path)


NATIVE = library()


def words(values):
    return (ctypes.c_uint32 * len(values))(*values)


def lent(array):
    """A slice passes as a pointer and a length."""
    return array, ctypes.c_size_t(len(array))


def compiled(sheet):
    """The table of a sheet that compile accepts, or None."""
    table, work, info = words([0] * 8192), words([0] * 1024), (ctypes.c_uint64 * 2)()
    if NATIVE.modechart_compile(*lent(words(sheet)), *lent(table), *lent(work), *lent(info)):
        return None
    return words(table[:info[1]])


def mask(table, block):
    return table[table[4 + table[2] + 2 * block]]


def left_by_events(rng):
    """One or two regions: a rest, and while an event is present a mode of three with a timer each, which it leaves as it stands."""
    regions = rng.randint(1, 2)
    rows, records = [[2, 0, 0]] + [[1, 0, 1 + regions + 5 * r] for r in range(regions)], []
    for r in range(regions):
        rest = 1 + regions + 5 * r
        busy = [rest + 2, rest + 3, rest + 4]
        rows += [[0, 1 + r, 0], [1, 1 + r, busy[0]]] + [[0, rest + 1, 0]] * 3
        records += [[rest, rest + 1, 1, r], [rest + 1, rest, 2, r]]
        records += [[a, b, 0, rng.randint(1, 6)] for a, b in zip(busy, busy[1:] + busy[:1])]
    ends = 3 + 3 * len(rows) + 2 * len(records)
    pairs = [x for i in range(len(records)) for x in (ends + 4 * i, 4)]
    return [len(rows), regions, len(records)] + sum(rows, []) + pairs + sum(records, [])


def sheet_ticks(sheet, inputs):
    """Of each tick its five words and the mode set after it, one tick a call."""
    state, sheet, trace = words([0] * STATE_WORDS), words(sheet), []
    for given in inputs:
        out, numbers, info = words([0] * 5), (ctypes.c_uint8 * 64)(), (ctypes.c_uint64 * 3)()
        assert not NATIVE.modechart_sheet_run(*lent(sheet), *lent(state), *lent(words([given])), *lent(out), *lent(numbers), *lent(info))
        trace.append((list(out), state[0]))
    return trace


def table_ticks(table, inputs, most, rng):
    """Of each tick its five words and, if it is the last of its call, the mask of the block after it; calls of up to `most` ticks."""
    state, trace, at = words([0] * STATE_WORDS), [], 0
    while at < len(inputs):
        sets = inputs[at:at + rng.randint(1, most)]
        out, info = words([0] * 5 * len(sets)), (ctypes.c_uint64 * 1)()
        assert not NATIVE.modechart_table_run(*lent(table), *lent(state), *lent(words(sets)), *lent(out), *lent(info))
        trace += [(out[5 * p:5 * p + 5], None) for p in range(len(sets))]
        trace[-1] = (trace[-1][0], mask(table, state[0]))
        at += len(sets)
    return trace


def station_ticks(table, inputs, rng):
    """The same of two stations, each with half of the input sets, by its own ticks; calls with allowances of up to 5."""
    half = len(inputs) // 2
    stations = words([x for i in range(2) for x in [0] * 99 + [i * half, half, 5 * i * half, 5 * half]])
    out, spent, traces = words([0] * 10 * half), ctypes.c_uint64(), [[], []]
    while any(len(trace) < half for trace in traces):
        assert not NATIVE.modechart_stations(
            stations, ctypes.c_size_t(2), *lent(table), *lent(words(inputs)), *lent(out), ctypes.c_uint64(rng.randint(1, 5)), ctypes.byref(spent))
        for i, trace in enumerate(traces):
            block, position = stations[STATION_WORDS * i], stations[STATION_WORDS * i + STATE_WORDS]
            if position > len(trace):
                trace += [(out[5 * (i * half + p):][:5], None) for p in range(len(trace), position)]
                trace[-1] = (trace[-1][0], mask(table, block))
    return traces


def with_masks(trace, true):
    """A trace with the masks that its calls do not return; those that they return must agree."""
    assert all(after in (None, known) for (_, after), (_, known) in zip(trace, true))
    return [(five, known) for (five, _), (_, known) in zip(trace, true)]


def stays(chart, trace):
    """For each stay with a timeout that the trace has the ticks for: whether it lasts as long as the timeout allows."""
    for tr in chart.transitions:
        for j, (five, after) in enumerate(trace):
            if tr.is_timer and five[0] & after & 1 << tr.source and j + tr.delay < len(trace):
                yield not any(later[1] >> tr.source & 1 for later, _ in trace[j + 1:j + tr.delay])


def main(seed, charts):
    rng, judged, longest, wrong, ticks = random.Random(seed), 0, 0, 0, 0
    while charts:
        sheet = left_by_events(rng) if rng.random() < 0.5 else random_chart(rng, rng.random() < 0.2)
        table = compiled(sheet)
        if table is None:
            continue
        charts -= 1
        _, chart = parse(sheet)
        inputs = []
        while len(inputs) < TICKS:                                      # a set may stay for some ticks
            inputs += [rng.randrange(2 ** chart.k)] * rng.choice([1, 1, 4, 9])
        inputs = inputs[:TICKS]
        true = sheet_ticks(sheet, inputs)
        halves = [true[:TICKS // 2], sheet_ticks(sheet, inputs[TICKS // 2:])]
        traces = [true] + [with_masks(table_ticks(table, inputs, most, rng), true) for most in (1, 6)]
        traces += [with_masks(trace, half) for trace, half in zip(station_ticks(table, inputs, rng), halves)]
        for trace in traces:
            lasting = list(stays(chart, trace))
            ticks, judged, longest = ticks + len(trace), judged + len(lasting), longest + sum(lasting)
            wrong += len(overstays(chart, trace))
    print(f"{ticks} ticks, {judged} stays with a timeout, {longest} as long as it allows, {wrong} too long")


if __name__ == "__main__":
    main(*[int(x) for x in sys.argv[1:]] + [1, 500][len(sys.argv) - 1:])
