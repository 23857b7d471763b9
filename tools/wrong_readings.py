"""Which wrong readings of the documents no stored case sees.

    wrong_readings.py [NAME..]      all readings, or those of the functions so named, or "by hand"
    wrong_readings.py --small ..    without the cases that take the interpreter a second or more

Each rule of the outside interpreter (shared/oracle: modechart.py, asks.py), in the edition that has landed (landed.txt),
is broken in turn: comparisons weakened, strengthened and negated, numbers one more and one less, conditions made true and false,
operands dropped, sets exchanged, one name taken for another, statements left out, guards exchanged; and readings written
by hand (readings_by_hand.txt) for what needs more. Each wrong interpreter answers the cases of crates/conform/stdin until
a line differs from crates/conform/stdout, and is then seen; so is one that stops with an error or takes too long. What no
case can see stands in FORCED with the reason. The last line counts; one that is not seen and not forced, or forced and
yet seen, is named before.
"""

import ast
import os
import resource
import signal
import sys
import time
import types
from itertools import chain

HERE = os.path.dirname(os.path.abspath(__file__))
ORACLE = os.path.join(HERE, "..", "..", "shared", "oracle")
STORED = os.path.join(HERE, "..", "crates", "conform")
sys.path.insert(0, ORACLE)
sys.dont_write_bytecode = True

import answers  # noqa: E402
from modechart import asks_given  # noqa: E402

with open(os.path.join(HERE, "landed.txt")) as file:
    LANDED = answers.Edition.of(asks_given(file.read().strip()))

# the functions of document 01, and what of document 02 changes them; the functions that document 02 adds
FUNCTIONS = """
    bits mask_of Transition.is_delay Transition.delay Transition.is_timer Transition.alternatives Chart.children
    Chart.ancestors Chart.contains Chart.meeting Chart.within Chart.side Chart.completed Chart.consistent Chart.running
    Chart.timer_words Chart.work_out parse mode_rows_ok ends_ok terms_ok Tick.rounds Tick.words term_holds
    alternative_that_holds Tick.numbers tick react conflict gives_way State.fresh aged readings_ok ages_ok sheet_state_ok
    table_state_ok sheet_tick run_sheet cell_tick cell_numbers compile_sheet table_words table_layout_ok block_at mask_at
    timers_of delay_of cell_at table_tick run_table""".split()
ADDED = """
    why Why.answer within_masks check_table table_is_true serve parts_ok has_work turn milliseconds""".split()
# what the answers call; the second file imports the first
CALLED = {"modechart.py": ["State", "check", "compile_sheet", "run_sheet", "run_table"],
          "asks.py": ["why", "within_masks", "check_table", "serve", "milliseconds"]}
LARGE = 1.0                 # seconds from which a part of the cases is left out for forced readings


# ---------------------------------------------------------------- what no case can see

# a reason, and readings as function, text before and text after (and which of several with the same texts, from 2 on)
OR_RULE = "value == 0 and 0 < place < len(kinds) - 1 and (kinds[place - 1] != 7) and (kinds[place + 1] != 7)"
ORDERED = "the tests before it have answered every other number that the change lets in"
CHECKED = "the check has refused every other kind"
BEGIN = "react(chart, modes, readings, given, entered, exited, active, taken, edition)"
EQUAL = "two eligible ones in conflict have equal meeting modes (ConflictIsEqual)"
CONFLICT = "ma == mb or chart.contains(ma, mb) or chart.contains(mb, ma)"
FIRST = "masks[0] != 0 or timers_of(table, 0)"
FORCED = {
    ORDERED: [
        ("terms_ok", "kind == 3", "kind <= 3"), ("terms_ok", "kind == 6", "kind <= 6"),
        ("terms_ok", "kind == 7", "kind <= 7"), ("term_holds", "kind == 2", "kind <= 2"),
        ("term_holds", "kind == 3", "kind <= 3"), ("term_holds", "kind == 4", "kind <= 4"),
        ("term_holds", "kind == 5", "kind <= 5")],
    CHECKED: [
        ("Transition.alternatives", "kind == 7", "kind >= 7"),
        ("Chart.completed", "self.kind[m] == 2", "self.kind[m] >= 2"),
        ("Chart.consistent", "self.kind[m] == 2", "self.kind[m] >= 2")],
    "a delay is the only pair of its record, and no other record ends with one": [
        ("Transition.is_delay", "self.terms[0]", "self.terms[-1]"),
        ("Transition.delay", "self.terms[0]", "self.terms[-1]"),
        ("term_holds", "kind == 1", "kind <= 1")],
    "a bit is 0 or 1": [("term_holds", "given >> value & 1 == 1", "given >> value & 1 >= 1")],
    "three words have no room for a mode": [
        ("parse", "len(sheet) < 3", "len(sheet) <= 3"), ("parse", "len(sheet) < 3", "len(sheet) < 4")],
    "only the first three words of a row are read": [
        ("parse", "6 + 3 * m", "7 + 3 * m"), ("parse", "3 * m", "4 * m", 2)],
    "a length is even": [
        ("parse", "4 <= length <= 34", "4 <= length <= 35"), ("parse", "4 <= length <= 34", "3 <= length <= 34")],
    "a record of 4 words or more has a pair": [("terms_ok", "len(tr.terms) == 1", "len(tr.terms) <= 1")],
    "a set of the members of a list is not larger than the list": [
        ("parse", "len(set(ends)) != len(ends)", "len(set(ends)) < len(ends)"),
        ("Chart.consistent", "len(inside) != len(self.children(m))", "len(inside) < len(self.children(m))"),
        ("table_is_true", "len(set(masks)) != B", "len(set(masks)) < B"),
        ("parts_ok", "len(set(owned)) != len(owned)", "len(set(owned)) < len(owned)")],
    "an atomic mode contains nothing, so it is no meeting mode": [
        ("ends_ok", "chart.kind[chart.meeting(s, t)] == 1", "chart.kind[chart.meeting(s, t)] <= 1")],
    "of two ors next to each other one has the other after it and one has the other before it": [
        ("terms_ok", OR_RULE, OR_RULE.replace(" and (kinds[place - 1] != 7)", "")),
        ("terms_ok", OR_RULE, OR_RULE.replace(" and (kinds[place + 1] != 7)", "")),
        ("terms_ok", "place - 1", "place + 1"), ("terms_ok", "place + 1", "place - 1"),
        ("terms_ok", "kinds[place - 1] != 7", "kinds[place - 1] != 8"),
        ("terms_ok", "kinds[place + 1] != 7", "kinds[place + 1] != 8")],
    "a kind above 7 next to an or is refused where it stands": [
        ("terms_ok", "kinds[place - 1] != 7", "kinds[place - 1] < 7"),
        ("terms_ok", "kinds[place + 1] != 7", "kinds[place + 1] < 7")],
    "what is remembered is what would be worked out again": [("Chart.ancestors", "m not in self.up", "True")],
    "it is asked of two modes only of which neither contains the other, so neither is the root": [
        ("Chart.meeting", "both[0] if both else None", "both[0] if True else None")],
    "completion is the same in any order, and for a mode gone through twice": [
        ("Chart.completed", "todo.pop(0)", "todo.pop(-1)"), ("Chart.completed", "c not in modes", "True")],
    "the root's parent is the root, and mode 1's too": [
        ("Chart.consistent", "m != 0 and self.parent[m] not in modes", "self.parent[m] not in modes"),
        ("Chart.consistent", "m != 0", "m != 1"), ("Chart.consistent", "m != 0", "m != -1")],
    "a set without the root lacks a member's parent, or is 0; then the state is fresh or has a reading too many": [
        ("Chart.consistent", "0 not in modes", "False")],
    "one that is triggered and is taken in no round gave way": [("why", "rnd.gave_way", "rnd.triggered")],
    "as the rounds begin, active is the current modes": [
        ("tick", BEGIN, BEGIN.replace("modes", "active")), ("tick", BEGIN, BEGIN.replace("active", "modes"))],
    "of the triggered one with the highest meeting mode does not give way": [
        ("react", "not eligible", "not triggered")],
    "after the walk each listed set has its block": [
        ("compile_sheet", "len(masks)", "len(blocks)", 5), ("compile_sheet", "len(masks)", "len(blocks)", 6),
        ("compile_sheet", "len(masks)", "len(blocks)", 7)],
    "the transitions taken somewhere are some of all": [
        ("compile_sheet", "somewhere != 2 ** chart.T - 1", "somewhere < 2 ** chart.T - 1")],
    "a mode that is active and not current was exited in this tick": [
        ("react", "modes & chart.transitions[t].leaves", "active & chart.transitions[t].leaves")],
    "the state of a refused tick is given by the tick and kept by the run, and both are the one before": [
        ("run_sheet", "Ran(p, state, result.refusal, rounds)", "Ran(p, after, result.refusal, rounds)"),
        ("run_table", "Ran(p, state, refusal)", "Ran(p, after, refusal)"),
        ("table_tick", "(15, None, state)", "(15, None, after)")],
    "no mode strictly contains itself": [("gives_way", "t == u", "False")],
    EQUAL: [
        ("conflict", CONFLICT, CONFLICT.replace(" or chart.contains(ma, mb)", "")),
        ("conflict", CONFLICT, CONFLICT.replace(" or chart.contains(mb, ma)", "")),
        ("conflict", "chart.contains(ma, mb)", "chart.contains(mb, mb)"),
        ("conflict", "chart.contains(ma, mb)", "chart.contains(ma, ma)"),
        ("conflict", "chart.contains(mb, ma)", "chart.contains(ma, ma)"),
        ("conflict", "chart.contains(mb, ma)", "chart.contains(mb, mb)")],
    "block 0 has no timers, so it has no state but the fresh one": [
        ("table_state_ok", "1 <= state.place < table[3]", "0 <= state.place < table[3]")],
    "four words have no room for a pair": [
        ("table_layout_ok", "len(table) < 4", "len(table) <= 4"),
        ("table_layout_ok", "len(table) < 4", "len(table) < 5")],
    "with B = 1 there is no next block (DECISIONS, reading 21)": [
        ("table_layout_ok", "1 <= B <= 4096", "1 < B <= 4096"),
        ("table_layout_ok", "1 <= B <= 4096", "2 <= B <= 4096")],
    "a block has nine words or more": [
        ("table_layout_ok", "len(table) < 4 + T + 2 * B", "len(table) <= 4 + T + 2 * B"),
        ("table_layout_ok", "4 + T", "5 + T"), ("table_layout_ok", "2 * B", "3 * B"),
        ("table_layout_ok", "length < 3", "length <= 3"), ("table_layout_ok", "length < 3", "length < 4")],
    "with B = 1 there is no next block, with B = 2 nothing changes, and above that block 0 would end past the words": [
        ("table_layout_ok", "2 * B", "2 + B")],
    "B from 2 to 4,096 and the first offset, at most 8,260, are good timer words": [
        ("table_layout_ok", "4:4 + T", "3:4 + T"), ("table_layout_ok", "4 + T", "5 + T", 2)],
    "an offset other than the end of the block before has been refused": [
        ("table_layout_ok", "offset + length", "end + length"),
        ("table_layout_ok", "offset:offset + 3", "end:offset + 3"),
        ("table_layout_ok", "offset + 3", "end + 3"), ("table_layout_ok", "offset + 3", "end + 3", 2)],
    "by its layout block 0 has no mask and no timers": [
        ("table_is_true", FIRST, "False"), ("table_is_true", FIRST, "timers_of(table, 0)"),
        ("table_is_true", FIRST, "masks[0] != 0"), ("table_is_true", FIRST, FIRST.replace("or", "and")),
        ("table_is_true", "masks[0] != 0", "masks[0] < 0")],
    "with a smaller T there are fewer timer words, with a smaller k the last cell would lie past the table's end": [
        ("table_is_true", "(k, T) != (chart.k, chart.T)", "(k, T) > (chart.k, chart.T)")],
    "each block lies within the words": [("table_layout_ok", "end == len(table)", "end >= len(table)")],
}

# readings written by hand that no case can see, and the reason
FORCED_BY_HAND = {
    "exits all that the meeting mode contains":
        "the meeting mode is serial, and of its children only the one that holds the source is active (consistency)",
    "conflict is that both exit a mode":
        "the sources are active, so a meeting mode equal to or inside another lies in the other's active child",
    "conflict is equal meeting modes": EQUAL,
    "gives way only to one that does not give way":
        "whoever gives way does so to an eligible one too (EligibleOrGivesWay)",
    "the meeting mode has the highest number": "a mode's parent has a lower number, so the innermost has the highest",
    "a timer is due in the first round only":
        "a due timer is taken or gives way in the first round; its source is left either way (DECISIONS, reading 9)",
    "readings of all timers drop": "every other reading is 0",
    "7 counts delays of 0": "rounds end when none is eligible, so no delay of 0 has an active source then",
    "a cell's timers not due are at 1": "a reading is due or not, and what is left of it is not in the table",
    "the sum counts modulo 2^16": "a reading is at most its delay, so a sum of the delay and 65,536 has an age above 65,535",
}


# ---------------------------------------------------------------- the cases

def cases():
    """The stored cases: number, its numbers, and its line, if it has one."""
    with open(os.path.join(STORED, "stdin")) as file:
        numbers = list(map(int, file.read().split()))
    with open(os.path.join(STORED, "stdout")) as file:
        lines = iter(file.read().splitlines())
    at = 0
    while numbers[at] != 0:
        case, start = numbers[at], at
        if case in (1, 24):
            at += 2 + numbers[at + 1]
        elif case in (2, 4, 11, 15):
            at += 3 + 2 * numbers[at + 2]
            at += 2 if case == 11 else (3 if case == 15 else 2) + numbers[at]
        elif case == 16:
            at += 5 + numbers[at + 2]
            for _ in range(numbers[at - 1]):
                at += 8 + 2 * numbers[at + 1]
        elif case == 17:
            at += 4 + numbers[at + 2]
        else:
            at += {3: 3, 5: 3, 6: 2, 13: 1, 14: 1}[case]
        yield case, numbers[start:at], [] if case in (5, 6, 24) else [next(lines)]
    assert next(lines, None) is None


def parts():
    """The stored cases in parts that need nothing of each other: a sheet or a table brought, and what follows. A table that is
    checked against the sheet is in the sheet's part."""
    found, checked = [], False
    for case, numbers, lines in reversed(list(cases())):
        if not found or ends:
            found.append(([], []))
        found[-1][0][:0], found[-1][1][:0] = numbers, lines
        checked = case == 14 or checked and case != 1
        ends = case == 1 or case == 24 and not checked
    return found[::-1]


def digest(words):
    """answers.digest, with the words at the end that were lent and not written taken at once."""
    prime, factor, fill = 4294967291, 65599, answers.FILL
    written, low = len(words), 0
    while low < written:                        # words[written:] are all as they were lent
        middle = (low + written) // 2
        if words[middle:written].count(fill) == written - middle:
            written = middle
        else:
            low = middle + 1
    power = pow(factor, len(words) - written, prime)
    rest = (fill + 1) * (power - 1) * pow(factor - 1, -1, prime)
    return (plain_digest(words[:written]) * power + rest) % prime


plain_digest, answers.digest = answers.digest, digest


def differs(part, edition):
    """Does an answer of this part differ from the stored one?"""
    numbers, lines = part
    given = answers.answer(iter(numbers + [0]), edition)
    return any(" ".join(map(str, line)) != stored for line, stored in zip(given, lines))


# ---------------------------------------------------------------- readings by a rule

WEAKER = {ast.Lt: ast.LtE, ast.Gt: ast.GtE}
STRONGER = {ast.LtE: ast.Lt, ast.GtE: ast.Gt}
NEGATED = {ast.Lt: ast.GtE, ast.GtE: ast.Lt, ast.Gt: ast.LtE, ast.LtE: ast.Gt, ast.Eq: ast.NotEq, ast.NotEq: ast.Eq,
           ast.In: ast.NotIn, ast.NotIn: ast.In}
ONE_SIDED = {ast.Eq: (ast.LtE, ast.GtE), ast.NotEq: (ast.Lt, ast.Gt)}
MOVED = {ast.Lt: -1, ast.LtE: 1, ast.Gt: 1, ast.GtE: -1}        # the bound that strengthens < and >, weakens <= and >=
OTHER = {ast.BitOr: (ast.BitAnd, ast.Sub), ast.BitAnd: (ast.BitOr, ast.Sub), ast.Sub: (ast.BitOr, ast.BitAnd, ast.Add),
         ast.Add: (ast.Sub,), ast.Mult: (ast.Add,), ast.RShift: (ast.LShift,), ast.LShift: (ast.RShift,)}

# names that may be taken for each other, where a function has both
ALIKE = {"source": ["target"], "target": ["source"], "entered": ["exited", "active"], "exited": ["entered"],
         "active": ["entered", "modes"], "modes": ["active"], "into": ["out", "entered"], "out": ["into"],
         "eligible": ["triggered", "gave_way"], "triggered": ["eligible"], "gave_way": ["triggered"], "low": ["high"],
         "high": ["low"], "a": ["b"], "b": ["a"], "ma": ["mb"], "mb": ["ma"], "s": ["t"], "t": ["s", "u"], "u": ["t"],
         "parent": ["first"], "first": ["parent"], "n": ["T", "k"], "k": ["T", "n"], "T": ["n", "k", "B"], "B": ["T"],
         "offset": ["length", "end"], "end": ["offset"], "readings": ["lowered", "ages"], "lowered": ["readings"],
         "ages": ["readings"], "inputs": ["out"], "work": ["table"], "state": ["after"], "mask": ["after"],
         "after": ["entered"], "masks": ["blocks"],
         "blocks": ["masks"], "timers": ["cells"], "kind": ["value"], "to": ["round"], "round": ["to", "alternative"],
         "alternative": ["round"], "NEVER_ACTIVE": ["NEVER_TRIGGERED"], "NEVER_TRIGGERED": ["NEVER_ACTIVE", "GAVE_WAY"],
         "GAVE_WAY": ["TAKEN"], "TAKEN": ["GAVE_WAY"], "in_from": ["out_from"], "out_from": ["in_from"],
         "in_count": ["out_count"], "out_count": ["in_count"], "in_parts": ["out_parts"], "out_parts": ["in_parts"],
         "start": ["end"], "position": ["mark"], "mark": ["position"], "spent": ["allowance"]}


def is_number(node):
    return isinstance(node, ast.Constant) and type(node.value) is int


def is_test(node):
    """Is this expression a truth value?"""
    if isinstance(node, ast.Call):
        return getattr(node.func, "id", "") in ("any", "all")
    return isinstance(node, (ast.Compare, ast.BoolOp)) or isinstance(getattr(node, "op", None), ast.Not)


class Landing(ast.NodeTransformer):
    """The interpreter of the landed edition alone: what asks for the edition is answered, what is never reached goes."""

    def visit_Attribute(self, node):
        if getattr(node.value, "id", None) == "edition":
            return ast.copy_location(ast.Constant(getattr(LANDED, node.attr)), node)
        return self.generic_visit(node)

    def visit_UnaryOp(self, node):
        self.generic_visit(node)
        if isinstance(node.op, ast.Not) and is_answer(node.operand):
            return ast.copy_location(ast.Constant(not node.operand.value), node)
        return node

    def visit_BoolOp(self, node):
        self.generic_visit(node)
        decides = isinstance(node.op, ast.Or)
        values = [value for value in node.values if not (is_answer(value) and value.value != decides)]
        if not values or is_answer(values[0]):
            return ast.copy_location(ast.Constant(decides if values else not decides), node)
        node.values = values
        return node if len(values) > 1 else values[0]

    def visit_IfExp(self, node):
        self.generic_visit(node)
        return (node.body if node.test.value else node.orelse) if is_answer(node.test) else node

    def visit_If(self, node):
        self.generic_visit(node)
        return (node.body if node.test.value else node.orelse) if is_answer(node.test) else node

    def visit_FunctionDef(self, node):
        self.generic_visit(node)
        ends = [place for place, child in enumerate(node.body) if isinstance(child, ast.Return)]
        node.body = node.body[:ends[0] + 1] if ends else node.body
        return node


def is_answer(node):
    """Does the edition answer this?"""
    return isinstance(node, ast.Constant) and isinstance(node.value, bool)


def moved(node, by):
    if is_number(node):
        return ast.Constant(node.value + by)
    return ast.BinOp(node, ast.Add() if by > 0 else ast.Sub(), ast.Constant(1))


def instead(node, is_condition):
    """The expressions that may stand in the place of this one in a wrong reading."""
    if is_condition:
        yield ast.Constant(True)
        yield ast.Constant(False)
    if isinstance(node, ast.Compare):
        for i, op in enumerate(node.ops):
            kinds = [table[type(op)] for table in (WEAKER, STRONGER, NEGATED) if type(op) in table]
            with_0 = is_number(node.comparators[i]) and node.comparators[i].value == 0
            for kind in kinds + list(ONE_SIDED.get(type(op), ())):
                if with_0 and (type(op), kind) in ((ast.Eq, ast.LtE), (ast.NotEq, ast.Gt)):
                    continue                    # no word is below 0
                yield ast.Compare(node.left, node.ops[:i] + [kind()] + node.ops[i + 1:], node.comparators)
            if type(op) in MOVED:
                bound = moved(node.comparators[i], MOVED[type(op)])
                yield ast.Compare(node.left, node.ops, node.comparators[:i] + [bound] + node.comparators[i + 1:])
    if isinstance(node, ast.BoolOp):
        for i in range(len(node.values)):
            rest = node.values[:i] + node.values[i + 1:]
            yield rest[0] if len(rest) == 1 else ast.BoolOp(node.op, rest)
        yield ast.BoolOp(ast.And() if isinstance(node.op, ast.Or) else ast.Or(), node.values)
    if isinstance(node, ast.UnaryOp) and isinstance(node.op, ast.Not):
        yield node.operand
    if isinstance(node, ast.Call) and getattr(node.func, "id", "") in ("any", "all"):
        yield ast.Call(ast.Name("all" if node.func.id == "any" else "any", ast.Load()), node.args, node.keywords)
    if isinstance(node, ast.BinOp):
        for kind in OTHER.get(type(node.op), ()):
            yield ast.BinOp(node.left, kind(), node.right)
    if is_number(node):
        yield ast.Constant(node.value + 1)
        yield ast.Constant(node.value - 1)


def name_of(node):
    """The name that an expression reads, or nothing."""
    if isinstance(node, (ast.Name, ast.Attribute)) and isinstance(node.ctx, ast.Load):
        return node.id if isinstance(node, ast.Name) else node.attr
    return None


def renamed(node, names):
    """A name read, with others of the function that it may be taken for."""
    for other in ALIKE.get(name_of(node), ()):
        if other in names and isinstance(node, ast.Name):
            yield ast.Name(other, ast.Load())
        elif other in names:
            yield ast.Attribute(node.value, other, ast.Load())


def is_guard(node):
    return isinstance(node, ast.If) and not node.orelse and len(node.body) == 1 and isinstance(node.body[0], ast.Return)


def are_exchangeable(one, next_one):
    """Two guards in a row with different answers, which may both apply."""
    if not is_guard(one) or not is_guard(next_one):
        return False
    of_one_value = all(isinstance(g.test, ast.Compare) and is_number(g.test.comparators[0]) for g in (one, next_one))
    return not of_one_value and ast.unparse(one.body[0]) != ast.unparse(next_one.body[0])


def guard_text(node):
    return f"if {ast.unparse(node.test)}: {ast.unparse(node.body[0])}"


def is_left_out(node):
    """Is nothing of it changed? Texts and assertions."""
    if isinstance(node, (ast.arguments, ast.Assert)):
        return True
    return isinstance(node, ast.Expr) and isinstance(node.value, ast.Constant)


def replacements(node, field, names):
    """What may stand in the place of an expression or a statement in a wrong reading."""
    if isinstance(node, ast.expr):
        yield from instead(node, field in ("test", "ifs") or field == "value" and is_test(node))
        yield from renamed(node, names)
    elif isinstance(node, (ast.AugAssign, ast.Expr)):
        yield ast.Pass()
    elif isinstance(node, ast.Assign) and isinstance(node.targets[0], ast.Subscript):
        yield ast.Pass()


def edits(node, around, names):
    """(owner, field, place, replacement, shown) for each wrong reading of what is below node; `shown` is the expression
    in which the change is shown, for a number or a name that around it."""
    for field, value in ast.iter_fields(node):
        many = isinstance(value, list)
        for place, child in enumerate(value if many else [value]):
            if not isinstance(child, ast.AST) or is_left_out(child):
                continue
            is_small = isinstance(child, (ast.Constant, ast.Name))
            for new in replacements(child, field, names):
                yield node, field, place if many else None, new, around if is_small and around else child
            if many and place + 1 < len(value) and are_exchangeable(child, value[place + 1]):
                yield node, field, (place, place + 1), None, None
            shows = isinstance(child, ast.expr) and not is_small
            yield from edits(child, None if isinstance(child, ast.stmt) else child if shows else around, names)


def applied(edit):
    """Makes the change; what stands there before and after, and how to undo it."""
    owner, field, place, new, shown = edit
    held = getattr(owner, field)
    if isinstance(place, tuple):
        i, j = place
        before = guard_text(held[i]) + " | " + guard_text(held[j])
        held[i], held[j] = held[j], held[i]
        after = guard_text(held[i]) + " | " + guard_text(held[j])

        def undo():
            held[i], held[j] = held[j], held[i]
        return before, after, undo
    old = held if place is None else held[place]
    before = ast.unparse(shown)
    ast.copy_location(new, old)
    ast.fix_missing_locations(new)

    def put(node):
        if place is None:
            setattr(owner, field, node)
        else:
            held[place] = node
    put(new)
    after = ast.unparse(new if shown is old else shown)
    return before, after, lambda: put(old)


def functions(tree):
    """The functions by name."""
    found = {}
    for node in tree.body:
        if isinstance(node, ast.FunctionDef):
            found[node.name] = node
        elif isinstance(node, ast.ClassDef):
            found.update({f"{node.name}.{f.name}": f for f in node.body if isinstance(f, ast.FunctionDef)})
    return {name: found[name] for name in FUNCTIONS + ADDED if name in found}


def readings(file, source, wanted):
    """(name, key, code by file) of each wrong reading of a file by a rule; the key is what FORCED has."""
    tree = Landing().visit(ast.parse(source))
    for name, function in functions(tree).items():
        if wanted and name not in wanted:
            continue
        texts, keys = {ast.unparse(function)}, {}
        names = {getattr(node, "arg", name_of(node)) for node in ast.walk(function)}
        for edit in list(edits(function, None, names)):
            before, after, undo = applied(edit)
            text = ast.unparse(function)
            if text not in texts:
                texts.add(text)
                keys[before, after] = keys.get((before, after), 0) + 1
                number = keys[before, after]
                key = (name, before, after) if number == 1 else (name, before, after, number)
                yield name, key, {file: compile(tree, file, "exec")}
            undo()


def readings_by_hand(sources, wanted):
    """The same of the readings written by hand, which may change both files."""
    for name, changes in by_hand():
        if wanted and name not in wanted and "by hand" not in wanted:
            continue
        texts = {file: "\n" + source for file, source in sources.items()}
        for old, new in changes:
            places = [file for file, text in texts.items() for _ in range(text.count(old))]
            assert len(places) == 1, f"{name}: does not stand once in the interpreter:\n{old}"
            texts[places[0]] = texts[places[0]].replace(old, new)
        yield "by hand", name, {file: compile(text, file, "exec") for file, text in texts.items()}


def by_hand():
    """Name and changes, text for text, of the readings of readings_by_hand.txt."""
    with open(os.path.join(HERE, "readings_by_hand.txt")) as file:
        for part in file.read().split("\nreading: ")[1:]:
            name, *lines = [line for line in part.split("\n") if line[:1] not in ("#", "")]
            places = [[]]
            for line in lines:
                places.append([]) if line == "..." else places[-1].append(line)
            yield name, [("\n" + "".join(line[1:] + "\n" for line in place if line[0] != "+"),
                          "\n" + "".join(line[1:] + "\n" for line in place if line[0] != "-")) for place in places]


# ---------------------------------------------------------------- the trial

SEEN, ERROR, SLOW = 1, 2, 3


def parsed_once(parse):
    """The same, a sheet asked for again and again being parsed once."""
    latest = {}

    def parsed(sheet):
        key = tuple(sheet)
        if key not in latest:
            latest.clear()
            latest[key] = parse(sheet)
        return latest[key]
    return parsed


def loaded(codes):
    """The interpreter of these codes by file, for the answers to call."""
    for file, names in CALLED.items():
        module = types.ModuleType(file[:-3])
        sys.modules[module.__name__] = module
        exec(codes[file], module.__dict__)
        if file == "modechart.py":
            module.parse = parsed_once(module.parse)
        for name in names:
            setattr(answers, name, getattr(module, name))


def trial(codes, stored, order, limits, pipe):
    """In a process of its own: answers the parts in order; the first that differs is written to the pipe."""
    resource.setrlimit(resource.RLIMIT_AS, (2 ** 30, 2 ** 30))
    sys.setrecursionlimit(400)
    state = {"part": order[0]}

    def end(how):
        os.write(pipe, f"{how} {state['part']}".encode())
        os._exit(0)

    signal.signal(signal.SIGVTALRM, lambda *_: end(SLOW))
    try:
        signal.setitimer(signal.ITIMER_VIRTUAL, 5)
        loaded(codes)
        for state["part"] in order:
            signal.setitimer(signal.ITIMER_VIRTUAL, limits[state["part"]])
            if differs(stored[state["part"]], LANDED):
                end(SEEN)
    except BaseException:
        end(ERROR)
    end(0)


def tried(codes, stored, order, limits):
    """How a reading is seen, and by which part."""
    out, into = os.pipe()
    child = os.fork()
    if child == 0:
        os.close(out)
        trial(codes, stored, order, limits, into)
    os.close(into)
    said = os.read(out, 100).decode().split()
    os.close(out)
    os.waitpid(child, 0)
    return (int(said[0]), int(said[1])) if said else (ERROR, order[0])


def measured(stored):
    """The seconds of processor time that each part takes."""
    times = []
    for part in stored:
        start = time.process_time()
        assert not differs(part, LANDED), "the interpreter itself does not give the stored answers"
        times.append(time.process_time() - start)
    return times


def main(words):
    wanted = [word for word in words if word != "--small"]
    sources = {}
    for name in CALLED:
        with open(os.path.join(ORACLE, name)) as file:
            sources[name] = file.read()
    stored = parts()
    times = measured(stored)
    limits = [5 + 10 * t for t in times]
    cheap = sorted(range(len(stored)), key=lambda i: times[i])
    forced = {key: reason for reason, keys in FORCED.items() for key in keys} | FORCED_BY_HAND
    right = {file: compile(source, file, "exec") for file, source in sources.items()}
    how, part = tried(right, stored, cheap, limits)
    assert not how, f"the interpreter itself is seen by part {part}"
    lately = {}                                 # the parts that saw readings of the same function, the latest first
    counts, unseen = {0: 0, SEEN: 0, ERROR: 0, SLOW: 0, "forced": 0}, 0
    by_rule = chain.from_iterable(readings(file, source, wanted) for file, source in sources.items())
    for name, key, wrong in chain(by_rule, readings_by_hand(sources, wanted)):
        first = lately.setdefault(name, [])
        order = first + [i for i in cheap if i not in first]
        if key in forced or "--small" in words:
            order = [i for i in order if times[i] < LARGE]
        how, part = tried(right | wrong, stored, order, limits)
        if how:
            first[:] = [part] + [i for i in first if i != part][:20]
        if key in forced and not how:
            counts["forced"] += 1
        elif key in forced:
            print("forced, yet seen:", key, flush=True)
            unseen += 1
        else:
            counts[how] += 1
            if not how:
                print("unseen:", key, flush=True)
    seen = counts[SEEN] + counts[ERROR] + counts[SLOW]
    print(f"seen by an answer {counts[SEEN]}, by an error {counts[ERROR]}, by taking too long {counts[SLOW]}")
    total = seen + counts["forced"] + counts[0] + unseen
    print(f"{total} readings, {seen} seen, {counts['forced']} forced, {counts[0] + unseen} unseen")


if __name__ == "__main__":
    main(sys.argv[1:])
