#!/usr/bin/env python3
"""What tests/replay.c prints to recorded cases (README.md: the format) where every answer agrees: calls and refusals counted from the record.
With --planted: recorded cases with something wrong in them, one for each kind of answer and each of its parts."""
import sys


class Reader:
    """Takes a case's numbers one by one, counts its answers, and notes where each stands."""

    def __init__(self, line):
        self.numbers, self.at, self.calls, self.refused = [int(word) for word in line.split()], 0, 0, 0
        # what is answered, and the numbers it has: (name, first place, size, whether its length stands before it)
        self.answers = []

    def one(self):
        self.at += 1
        return self.numbers[self.at - 1]

    def skip(self, count):
        self.at += count

    def part(self, name, size, counted=False):
        """A part of an answer."""
        self.answers.append((name, self.at, size, counted))
        self.skip(size)

    def answer(self, name, parts):
        """A refusal, and the parts behind it, each with its size."""
        row = self.numbers[self.at]
        name += " refused" if row else ""
        self.calls += 1
        self.refused += row != 0
        for part, size in [("row", 1), *parts]:
            self.part(f"{name}: {part}", size)

    def counted(self, name):
        self.part(name, self.one(), True)


def moves(case):
    a, d, e, _ = (case.one() for _ in range(4))
    w = (e + 63) // 64
    case.skip(a + 1 + d + e + a * w)
    case.answer("new", [("value", 1)])
    value = [("value", 1)]
    calls = {
        1: ("try_move", 1 + w, [("accepted", 1), ("appeared", 1), ("vanished", 1), ("reached", 1)]),
        2: ("atom_set", 1, [("set", w)]),
        3: ("atom_count", w, value),
        4: ("multiplicity", 2 * w, value),
        5: ("edge_count", 0, value),
        6: ("edge_at", 1, [("found", 1), ("from", w), ("to", w), ("multiplicity", 1)]),
        7: ("has_cycle", 0, value),
        8: ("chunk_count", 0, value),
    }
    for _ in range(case.one()):
        kind = case.one()
        if kind == 9:
            case.skip(1)
            room = case.one()
            case.answer("start_order", [("value", 1), ("chunks", room)])
            continue
        name, arguments, parts = calls[kind]
        case.skip(arguments)
        case.answer(name, parts)


def look(case, kind, m, w):
    """What the area shows at the end."""
    case.calls += 1
    if kind == 10:
        case.skip(1)
        case.part("side effects", 1)
        case.part("need of creation", 1)
        case.counted("dependencies of a chunk")
        case.counted("modules of a chunk")
    elif kind == 11:
        sets = case.one()
        case.part("sets", sets * w)
        case.part("chunks of sets", sets)
    else:
        case.part("chunks of modules", m)


def merges(case):
    _, m, _, e, initial, count = (case.one() for _ in range(6))
    w = (e + 63) // 64
    case.skip(initial + 1 + count)
    pairs = case.one()
    case.skip(pairs * w + pairs + m)
    case.answer("merge new", [])
    value = [("value", 1)]
    calls = {
        1: ("init_module_assignment", 1 + w, []),
        2: ("add_module_to_chunk", 2, []),
        3: ("register_chunk_graph_index", 2, []),
        4: ("to_temp_idx", 1, value),
        6: ("would_create_circular_dependency", 2, value),
        7: ("is_reachable", 2, value),
        8: ("merge_chunk_dependencies", 2, []),
    }
    for _ in range(case.one()):
        kind = case.one()
        if kind == 5:
            case.skip(case.one() + m + 1)
            case.answer("calc_chunk_dependencies", [])
        elif kind == 9:
            candidates = case.one()
            case.skip(2 * candidates)
            case.answer("pass", [("value", 1), ("kinds", candidates), ("numbers", candidates)])
        elif kind >= 10:
            look(case, kind, m, w)
        else:
            name, arguments, parts = calls[kind]
            case.skip(arguments)
            case.answer(name, parts)


def read(line):
    case = Reader(line)
    moves(case) if case.one() == 1 else merges(case)
    assert case.at == len(case.numbers), line
    return case


def planted(case, seen):
    """Copies of the case with one number wrong, or the last number of a list gone, for the parts that weren't seen yet."""
    for name, at, size, counted in case.answers:
        if size == 0 or name in seen:
            continue
        seen.add(name)
        last = at + size - 1
        wrong = case.numbers[:]
        wrong[last] = wrong[last] - 1 if wrong[last] else 1
        yield wrong
        if counted:
            yield case.numbers[:at - 1] + [size - 1] + case.numbers[at:last] + case.numbers[last + 1:]


def main():
    seen = set()
    for number, line in enumerate(sys.stdin, 1):
        case = read(line)
        if sys.argv[1:] == ["--planted"]:
            for numbers in planted(case, seen):
                print(*numbers)
        else:
            print(f"case {number}: {case.calls} calls, {case.refused} refused, 0 differ")


main()
