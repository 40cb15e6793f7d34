"""Input with data that is cut off, changed or too much, for the commands `atoms`, `merge`, `map`, `params` and `report`.

Of each answer: the status is one that docs/formats.md names; with status 0 nothing is said on standard error; with any other one
line stands there, and nothing is printed. Where a status is told here, it is the one that docs/formats.md says."""

import random
import subprocess
import sys

HEAD = b"# P2_1/c\n-x,y+1/2,-z+1/2\n-x,-y,-z\n"
INPUTS = {
    "atoms": HEAD + b"%%\nNa1 0 0 0\n# c\nCl_2\t0.1 1/3 -0.25\r\nO 1.2 0.5 .5\n\nNa1 0 0 0",
    "merge": HEAD + b"%%\n1 0 0 12\n0 1 0 -3\n\t0 2 0 +44\r\n10000 -1 3 999999999\n-1 0 0 7\n",
    "merge anomalous": HEAD + b"%%\n1 0 0 12\n0 1 0 -3\n",
    "map 2 2 2": HEAD + b"%%\n1\n2\n3\n-4\n# x\n5\n+6\n7\n8\n",
    "params": HEAD,
    "report": HEAD,
}
TAILS = (b"%%\n" * 1000, b"%%" * 50000, b"\n" * 100000, b"\0" * 1000, b"\xff\xfe\n", b"A" * 100000)
PIECES = (b"%%\n", b" ", b"\t", b"/", b"-", b"0", b"\n", b"\r\n", b"9" * 12, b".5")

BAD_LINE = "sg: line {}: not a data line\n"
TOLD = (
    ("merge", HEAD + b"%%\n1 0 0 999999999\n", 0, None),
    ("merge", HEAD + b"%%\n1 0 0 1000000000\n", 11, BAD_LINE.format(5)),
    ("merge", HEAD + b"%%\n-10000 0 0 1\n", 0, None),
    ("merge", HEAD + b"%%\n10001 0 0 1\n", 11, BAD_LINE.format(5)),
    ("merge", HEAD + b"%%\n0000000001 0 0 1\n", 11, BAD_LINE.format(5)),
    ("merge", b"%%", 0, None),
    ("merge", b"", 0, None),
    ("atoms", HEAD + b"%%\n" + b"A" * 16 + b" 0 0 0\n", 0, None),
    ("atoms", HEAD + b"%%\n" + b"A" * 17 + b" 0 0 0\n", 11, BAD_LINE.format(5)),
    ("atoms", HEAD + b"%%\nA 0.123456 0 0\n", 0, None),
    ("atoms", HEAD + b"%%\nA 0.1234567 0 0\n", 11, BAD_LINE.format(5)),
    ("atoms", HEAD + b"%%\nA 1/1000000 0 0\n", 0, None),
    ("atoms", HEAD + b"%%\nA 1/1000001 0 0\n", 11, BAD_LINE.format(5)),
    ("atoms", HEAD + b"%%\nA 1000000000 0 0\n", 0, None),
    ("atoms", HEAD + b"%%\nA 1000000001 0 0\n", 11, BAD_LINE.format(5)),
    ("atoms", HEAD + b"%%\nA 0 0 0\n%%\n", 11, BAD_LINE.format(6)),
    ("atoms", b"%%\n" + b"A 0 0 0\n" * 4096, 0, None),
    ("atoms", b"%%\n" + b"A 0 0 0\n" * 4097, 12, "sg: too many data lines\n"),
    ("atoms", b"%%\n" + b"A 0 0 0\n" * 4097 + b"bad\n", 11, BAD_LINE.format(4099)),
    ("atoms", b"x,y\n%%\nbad\n", 5, "sg: line 1: not a triplet\n"),
    ("atoms", b"x" * 1048577, 10, "sg: input too long\n"),
    ("atoms", b"-x,-y,-z\n%%\n#" + b"x" * 1048563, 0, None),
    ("atoms", b"-x,-y,-z\n%%\n#" + b"x" * 1048564, 10, "sg: input too long\n"),
    ("atoms", b"x" * 1048570 + b"\n%%\nA", 5, "sg: line 1: not a triplet\n"),
    ("map 1 1 1", b"%%\n", 12, "sg: wrong number of values\n"),
    ("map 1 1 1", b"%%\n1\n2\n", 12, "sg: wrong number of values\n"),
    ("map 1 1 1", b"%%\n1\n2\nx\n", 11, BAD_LINE.format(4)),
    ("map 3 3 3", HEAD + b"%%\n" + b"1\n" * 27, 8, "sg: grid is not kept\n"),
    ("map 3 3 3", HEAD + b"%%\n" + b"1\n" * 26, 12, "sg: wrong number of values\n"),
    ("map 2049 1 1", HEAD + b"%%\n", 2, None),
    ("map 0 1 1", HEAD + b"%%\n", 2, None),
    ("map 1 1 1 1", HEAD + b"%%\n", 2, None),
    ("atoms x", HEAD + b"%%\n", 2, None),
    ("merge Anomalous", HEAD + b"%%\n", 2, None),
    ("report x", HEAD, 2, None),
    ("params x", HEAD, 2, None),
    ("ops", b"x,y,z\n%%\n", 5, "sg: line 2: not a triplet\n"),
    ("params", HEAD + b"%%\n", 5, "sg: line 4: not a triplet\n"),
)


def changed(data, chance):
    """The input after a few changes of a byte, cuts and pieces put in."""
    data = bytearray(data)
    for _ in range(chance.randrange(1, 6)):
        place = chance.randrange(len(data) + 1)
        kind = chance.randrange(3)
        data[place : place + (kind < 2)] = (bytes([chance.randrange(256)]), b"", chance.choice(PIECES))[kind]
    return bytes(data)


def calls():
    """Each call: words, input, and what is told of its status and fault text."""
    chance = random.Random(7)
    yield from TOLD
    for words, data in INPUTS.items():
        for end in range(len(data)):
            yield words, data[:end], None, None
            for byte in (b"\0", b"\n", b"\r", b"%", b"\xff"):
                yield words, data[:end] + byte + data[end + 1 :], None, None
        yield words, data, 0, None
        for tail in TAILS:
            yield words, data + b"\n" + tail, None, None
        for _ in range(200):
            yield words, changed(data, chance), None, None


def is_right(answer, status, fault):
    """Whether an answer is one of the program, with the status and the fault text that are told."""
    if status is not None and answer.returncode != status or fault is not None and answer.stderr != fault.encode():
        return False
    if answer.returncode == 0:
        return not answer.stderr
    one_line = answer.stderr.startswith(b"sg: ") and answer.stderr.find(b"\n") == len(answer.stderr) - 1
    return answer.returncode in (2, 5, 6, 7, 8, 10, 11, 12) and not answer.stdout and one_line


def main(program):
    passed = failed = 0
    for words, data, status, fault in calls():
        answer = subprocess.run([program, *words.split()], input=data, capture_output=True, timeout=60)
        if is_right(answer, status, fault):
            passed += 1
        else:
            failed += 1
            print(f"hostile: {words}: {len(data)} bytes {data[:100]!r}: status {answer.returncode}, {answer.stderr[:80]!r}")
    print(f"hostile: {passed} passed, {failed} failed")
    return failed > 0


if __name__ == "__main__":
    sys.exit(main(sys.argv[1]))
