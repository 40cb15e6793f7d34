"""`python3 -m sg` is the command: what it prints, its status, and what it leaves unread."""

from __future__ import annotations

import os
import subprocess
import sys
import unittest

from inputs import P21C, with_library


def command(*words: str, **streams) -> subprocess.CompletedProcess:
    return subprocess.run([sys.executable, "-m", "sg", *words], stderr=subprocess.PIPE, check=False, **streams)


@with_library
class Command(unittest.TestCase):
    def test_prints(self):
        done = command("fit", "0", "1/2", "0", input=P21C.encode(), stdout=subprocess.PIPE)
        self.assertEqual((done.returncode, done.stdout, done.stderr), (0, b"3 2 0,0,1/2\n", b""))

    def test_refuses(self):
        for words, given, status, told in (
            (["OPS"], b"", 2, b"sg: words are not a command in range\n"),
            ([], b"", 2, b"sg: words are not a command in range\n"),
            (["ops"], b"x,y,z\nx,y\n", 5, b"sg: line 2: not a triplet\n"),
            (["ops"], b"#" * (2**20 + 1), 10, b"sg: input too long\n"),
            (["grid", "1", "1", "1"], P21C.encode(), 8, b"sg: grid is not kept\n"),
            ([b"\xff"], b"", 1, b"sg: words are no text\n"),
        ):
            with self.subTest(words):
                done = command(*words, input=given, stdout=subprocess.PIPE)
                self.assertEqual((done.returncode, done.stdout, done.stderr), (status, b"", told))

    def test_leaves_the_input_unread(self):
        # A stream for writing alone, of which each read fails.
        with open(os.devnull, "wb") as unreadable:
            sample = command("sample", "0", stdin=unreadable, stdout=subprocess.PIPE)
            self.assertEqual((sample.returncode, sample.stdout.split(b"\n")[0]), (0, b"group 1 operators 1"))
            self.assertEqual(command("sample", stdin=unreadable, stdout=subprocess.PIPE).returncode, 2)
            read = command("ops", stdin=unreadable, stdout=subprocess.PIPE)
            self.assertEqual((read.returncode, read.stderr), (3, b"sg: reading failed\n"))

    def test_writing_fails(self):
        with open("/dev/full", "wb") as full:
            done = command("ops", input=b"", stdout=full)
        self.assertEqual((done.returncode, done.stderr), (4, b"sg: writing failed\n"))


if __name__ == "__main__":
    unittest.main()
