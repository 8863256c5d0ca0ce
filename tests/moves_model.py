#!/usr/bin/env python3
"""The program `moves` worked out plainly from documents 01 and 02: counts, edges, cycles and component afresh at each command.

    tests/moves_model.py < INPUT      what the program prints to INPUT, raw bytes
    tests/moves_model.py --write      writes crates/test_moves/stdin and stdout from tests/moves_inputs.txt
    tests/moves_model.py --check      compares both files with what --write would write, and P1 with crates/moves
    tests/moves_model.py --large MOVES
                                      runs the program MOVES on an input of many blocks, and compares what it prints
"""
import pathlib
import subprocess
import sys

ATOMS, ROOM, ENTRIES, BITS = 48, 96, 128, 16
PHASES = {0x10: False, 0x11: False, 0x12: False, 0x13: False, 0x20: True, 0x21: True, 0x22: True, 0x23: True}
OPERANDS = {0x10: 1, 0x11: 2, 0x12: 2, 0x13: 0, 0x20: 2, 0x21: 0, 0x22: 1, 0x23: 0}


def reached(edges, start):
    """What start reaches in one step or more."""
    found, todo = set(), [start]
    while todo:
        x = todo.pop()
        for source, target in edges:
            if source == x and target not in found:
                found.add(target)
                todo.append(target)
    return found


def looped(edges):
    """Whether edges are left once those to chunks that no edge leaves are taken away, again and again."""
    left = set(edges)
    while True:
        sources = {source for source, _ in left}
        kept = {(source, target) for source, target in left if target in sources}
        if kept == left:
            return bool(left)
        left = kept


class Graph:
    """The atoms' sets, their dependencies in the order named, the hosts, and the registered sets."""

    def __init__(self):
        self.place, self.dependencies, self.hosts, self.registered = [], [], {}, []

    def edges(self, place):
        """The multiplicity of each edge (source set, target set)."""
        pairs = [(place[a], place[b]) for a, b in self.dependencies]
        pairs += [(1 << e, place[a]) for e, a in self.hosts.items() if 1 << e in place]
        return {(x, y): pairs.count((x, y)) for x, y in pairs if x != y}

    def cyclic(self, place):
        """The sets that lie on a closed walk."""
        edges = self.edges(place)
        return {x for x in place if x in reached(edges, x)}

    def component(self):
        """The stored cyclic component: none where there are two or more."""
        edges, nodes = self.edges(self.place), self.cyclic(self.place)
        return nodes if all(y in reached(edges, x) for x in nodes for y in nodes) else set()

    def load(self):
        if any(a == b for a, b in self.dependencies):
            return "refused 5"
        if len(set(self.place)) < len(self.place):
            return "refused 8"
        self.registered = list(self.place)
        return "cyclic" if self.cyclic(self.place) else "acyclic"

    def move(self, atom, target):
        if atom >= len(self.place):
            return "refused 10"
        if target == self.place[atom]:
            return "refused 12"
        if self.cyclic(self.place) and self.place[atom] not in self.component():
            return "rejected"
        if target not in self.registered:
            if len(self.registered) == ROOM:
                self.registered.remove(min(set(self.registered) - set(self.place)))
            self.registered.append(target)
        moved = self.place[:atom] + [target] + self.place[atom + 1 :]
        if self.cyclic(moved):
            return "rejected"
        self.place = moved
        return "accepted"


class Stop(Exception):
    """Nothing more is printed."""


def execute(graph, command, x, y, lines):
    atoms = len(graph.place)
    if command == 0x10:
        if atoms == ATOMS:
            raise Stop("refused 22")
        graph.place.append(x)
    elif command == 0x11:
        if x >= atoms or y >= atoms or len(graph.dependencies) == ENTRIES:
            raise Stop("refused 22")
        graph.dependencies.append((x, y))
    elif command == 0x12:
        if x >= BITS or y >= atoms or x in graph.hosts:
            raise Stop("refused 22")
        graph.hosts[x] = y
    elif command == 0x13:
        answer = "load " + graph.load()
        if "refused" in answer:
            raise Stop(answer)
        lines.append(answer)
    elif command == 0x20:
        lines.append(graph.move(x, y))
    elif command == 0x21:
        edges = graph.edges(graph.place)
        lines += [f"{source} {target} {edges[source, target]}" for source, target in sorted(edges)]
        lines.append(f"edges {len(edges)}")
    elif command == 0x22:
        lines.append(str(graph.place[x]) if x < atoms else "refused 10")
    else:
        lines.append("cyclic" if looped(graph.edges(graph.place)) else "acyclic")


def printed(data):
    """The lines that the program prints to an input."""
    graph, lines, moving, at = Graph(), [], False, 0
    try:
        while at < len(data):
            command = data[at]
            if PHASES.get(command) is not moving:
                raise Stop("refused 22")
            end = at + 1 + 2 * OPERANDS[command]
            if end > len(data):
                raise Stop("refused 22")
            words = [data[i] + 256 * data[i + 1] for i in range(at + 1, end, 2)] + [0, 0]
            execute(graph, command, words[0], words[1], lines)
            moving = moving or command == 0x13
            at = end
    except Stop as stop:
        lines.append(str(stop))
    return "".join(line + "\n" for line in lines)


def inputs(text):
    """Each remark, a line with #, begins an input; the lines after it are its bytes in hex. The first paragraph is about the file."""
    data = None
    for line in text.split("\n\n", 1)[1].splitlines():
        if not line.startswith("#"):
            data += bytes.fromhex(line)
            continue
        if data is not None:
            yield data
        data = b""
    yield data


def cases(root):
    """Standard input and output of crates/test_moves."""
    data, text = b"", ""
    for number, case in enumerate(inputs((root / "tests/moves_inputs.txt").read_text()), 1):
        data += len(case).to_bytes(2, "little") + case
        text += f"case {number}\n" + printed(case)
    return data, text


def large(example):
    """P1's load, then 30,000 moves, questions, verdicts and listings: input and output go through several blocks."""
    data = bytearray(example[: example.index(0x13) + 1])
    for k in range(30000):
        if k % 100 == 99:
            data.append(0x21)
        elif k % 100 == 98:
            data.append(0x23)
        elif k % 3 == 2:
            data += bytes([0x22, k % 4, 0])
        else:
            data += bytes([0x20, k % 3, 0, k * 7 % 13, k % 5 // 4])
    return bytes(data)


def main():
    root = pathlib.Path(__file__).resolve().parent.parent
    folder, example = root / "crates/test_moves", root / "crates/moves"
    if sys.argv[1:] == ["--write"]:
        data, text = cases(root)
        (folder / "stdin").write_bytes(data)
        (folder / "stdout").write_text(text)
    elif sys.argv[1:] == ["--check"]:
        same = cases(root) == ((folder / "stdin").read_bytes(), (folder / "stdout").read_text())
        same = same and printed((example / "stdin").read_bytes()) == (example / "stdout").read_text()
        print("moves model:", "agrees" if same else "DIFFERS")
        sys.exit(not same)
    elif sys.argv[1:2] == ["--large"]:
        data = large((example / "stdin").read_bytes())
        told = subprocess.run([sys.argv[2]], input=data, stdout=subprocess.PIPE, check=True).stdout.decode()
        same = told == printed(data)
        print(f"moves, {len(data)} bytes in and {len(told)} out:", "agrees" if same else "DIFFERS")
        sys.exit(not same)
    else:
        sys.stdout.write(printed(sys.stdin.buffer.read()))


if __name__ == "__main__":
    main()
