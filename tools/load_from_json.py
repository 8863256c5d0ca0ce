#!/usr/bin/env python3
"""Makes a file for the tool `nidskalm` (README.md, "A file for the tool") from a load in JSON.

    tools/load_from_json.py LOAD.json ["what it is made from"] > load.txt

The JSON object has, with an item for each atom: "sets" (hex numbers as strings, one bit for each entry), "dependencies" (lists of atoms),
"atom_modules" (lists of names), "bytes" and, if there is one, "fixed" (nonzero or true); with an item for each entry: "entries" (names) and
"hosts" (an atom or null). What the numbers must be for the library to take them, the tool checks.
"""
import json
import sys
from itertools import groupby

NONE = 4294967295


def bits(number):
    return [bit for bit in range(number.bit_length()) if number >> bit & 1]


def needs(atoms):
    """Each atom once in a row, with its repeats: 3*12."""
    runs = [(atom, len(list(run))) for atom, run in groupby(sorted(atoms))]
    return " ".join(f"{atom}*{times}" if times > 1 else str(atom) for atom, times in runs)


def lines(load):
    for name, host in zip(load["entries"], load["hosts"], strict=True):
        yield f"entry {'-' if host is None or host == NONE else host} {name}"
    columns = (load["sets"], load["dependencies"], load["atom_modules"], load["bytes"], load.get("fixed", [0] * len(load["sets"])))
    for entry_set, atoms, modules, size, fixed in zip(*columns, strict=True):
        shown = ", ".join(map(str, bits(int(entry_set, 16))))
        yield f"atom {size} {{{shown}}}" + (" fixed" if fixed else "")
        yield from (f"module {name}" for name in modules)
        if atoms:
            yield f"needs {needs(atoms)}"


def main(words):
    if len(words) not in (1, 2):
        sys.exit(__doc__)
    path = words[0]
    try:
        with open(path, encoding="utf-8") as file:
            text = "\n".join(lines(json.load(file)))
    except (OSError, ValueError, KeyError, TypeError) as error:
        print(f"{path}: {type(error).__name__}: {error}", file=sys.stderr)
        return 2
    for remark in words[1:]:
        print(f"# {remark}")
    print(text)
    return 0


if __name__ == "__main__":
    sys.exit(main(sys.argv[1:]))
