#!/usr/bin/env python3
"""The program `chain` worked out plainly from document 02, (xii).

    tests/chain_model.py < INPUT            what the program prints to INPUT, raw bytes
    tests/chain_model.py --check            compares crates/chain/stdout with what INPUT crates/chain/stdin gives
    tests/chain_model.py --run CHAIN MOVES  runs the program CHAIN on every number and on inputs that aren't one, in one piece and in several,
                                            and what it writes through the program MOVES
"""
import pathlib
import subprocess
import sys
import time

LARGEST = 512
ATOMS = 48
REFUSED = b"refused 22\n"


def command(number, *operands):
    """One byte, then each operand as two, the low one first."""
    return bytes([number]) + b"".join(x.to_bytes(2, "little") for x in operands)


def commands(n):
    """Sets 1 to n, each atom on the next, the load, and atom 0 to set n + 1."""
    text = b"".join(command(0x10, number) for number in range(1, n + 1))
    text += b"".join(command(0x11, atom, atom + 1) for atom in range(n - 1))
    return text + command(0x13) + command(0x20, 0, n + 1)


# In base ten from 1 to 512 without leading zeros, at most a newline after it.
NUMBERS = {b"%d" % n + end: n for n in range(1, LARGEST + 1) for end in (b"", b"\n")}


def printed(text):
    return commands(NUMBERS[text]) if text in NUMBERS else REFUSED


def bad_inputs():
    """Every input here is refused."""
    yield from (b"", b"0", b"0\n", b"00", b"01", b"01\n", b"001", b"0512", b"513", b"513\n", b"520", b"600", b"999", b"1000", b"5120", b"10000")
    yield from (b"+1", b"-1", b"-", b"+", b" 1", b"1 ", b"1 \n", b"\t1", b"1 2", b"1,0", b"1.0", b"1e2", b"0x1", b"1_0", b"a", b"1a", b"a1")
    yield from (b"\r", b"1\r", b"1\r\n", b"\n", b"\n\n", b"\n1", b"1\n\n", b"1\n1", b"512\n\n", b"512\n1", b"1\0", b"\x001", b"1\n\0", b"1\0\n", b"\0")
    yield from ("٣".encode(), "１".encode(), b"\xb1", b"1\xff", b"51\x80")
    yield from (b"1" * 65536, b"1\n" + b"\n" * 65536, b"0" * 65536 + b"1", b" " * 1048576, b"\0" * 1048576)


def inputs():
    """The bad ones, every number, every single byte, and every byte before and behind a digit."""
    for text in bad_inputs():
        assert printed(text) == REFUSED, text
        yield text
    for n in range(1, LARGEST + 1):
        assert printed(b"%d" % n) == printed(b"%d\n" % n) == commands(n), n
        yield from (b"%d" % n, b"%d\n" % n)
    for byte in range(256):
        yield from (bytes([byte]), bytes([byte]) + b"2", b"5" + bytes([byte]), b"51" + bytes([byte]), b"47" + bytes([byte]) + b"\n")


def run(program, text):
    return subprocess.run([program], input=text, stdout=subprocess.PIPE, check=True).stdout


def run_in_pieces(program, pieces):
    """A read gets what has come so far."""
    with subprocess.Popen([program], stdin=subprocess.PIPE, stdout=subprocess.PIPE) as running:
        for piece in pieces:
            running.stdin.write(piece)
            running.stdin.flush()
            time.sleep(0.05)
        running.stdin.close()
        return running.stdout.read()


def compare(what, found, wanted):
    if found != wanted:
        sys.exit(f"chain_model: {what}: found {found[:80]!r}, wanted {wanted[:80]!r}")


def edge_lines(n):
    """The edges after the move: from set n + 1 by set 2 to set n, each once."""
    edges = [(source, source + 1) for source in range(2, n)] + [(n + 1, 2)] * (n > 1)
    return b"".join(b"%d %d 1\n" % edge for edge in edges) + b"edges %d\n" % len(edges)


def run_all(chain, moves):
    count = 0
    for text in inputs():
        compare(f"input {text[:40]!r}", run(chain, text), printed(text))
        count += 1
    for text in (b"48\n", b"512", b"512\n", b"513\n", b"1\n\n", b"01"):
        compare(f"{text!r} byte by byte", run_in_pieces(chain, [bytes([byte]) for byte in text]), printed(text))
        count += 1
    for n in range(1, LARGEST + 1):
        loaded = n <= ATOMS
        text = run(chain, b"%d\n" % n)
        compare(f"{n} through moves", run(moves, text), b"load acyclic\naccepted\n" if loaded else REFUSED)
        compare(f"{n} through moves, edges", run(moves, text + b"\x21"), b"load acyclic\naccepted\n" + edge_lines(n) if loaded else REFUSED)
        count += 2
    print(f"chain_model: {count} runs, ok")


def main(words):
    if words[:1] == ["--run"] and len(words) == 3:
        run_all(words[1], words[2])
    elif words == ["--check"]:
        folder = pathlib.Path(__file__).resolve().parent.parent / "crates" / "chain"
        compare("crates/chain/stdout", (folder / "stdout").read_bytes(), printed((folder / "stdin").read_bytes()))
    elif not words:
        sys.stdout.buffer.write(printed(sys.stdin.buffer.read()))
    else:
        sys.exit(__doc__)


main(sys.argv[1:])
