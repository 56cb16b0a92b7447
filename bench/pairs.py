#!/usr/bin/env python3
"""Compares what two commands weave for random pairs of a policy and a program, byte for byte.

    python3 bench/pairs.py OURS OTHER [--count 1000] [--seed 1] [--splits] [--batch]

OURS and OTHER are commands that take `weave POLICY SOURCE`. Pairs have calls, recursion, limits, opens and closes, rules, refusals, stops after
refusals, and both formats; with --splits also functions in processes of their own, and what forbids them. Status, output and note have to be the same;
what OURS wove with status 0 has to pass its `check`, and each strategy its `refute`. A pair for which that fails is left in the folder that is told,
and the status is 1. The last lines count the answers.

With --batch OTHER is started once: it reads lines of words with a tab between them and answers each by a line: the status, the SHA-256 of
what it puts to the output and that of the note, in hexadecimal, a space between them. Needs Python 3.8 and no package.
"""
import argparse
import collections
import hashlib
import os
import random
import shlex
import subprocess
import sys
import tempfile

from making import Maker


def digest(data):
    return hashlib.sha256(data).hexdigest()


def said(command, words, folder):
    run = subprocess.run(command + words, cwd=folder, capture_output=True)
    return run.returncode, run.stdout, run.stderr


class Other:
    """The other command, started for each pair or once."""

    def __init__(self, command, batch, folder):
        self.command, self.folder = command, folder
        self.served = subprocess.Popen(command, cwd=folder, stdin=subprocess.PIPE, stdout=subprocess.PIPE, text=True) if batch else None

    def digests(self, words):
        if self.served is None:
            status, out, note = said(self.command, words, self.folder)
            return status, digest(out), digest(note)
        self.served.stdin.write("\t".join(words) + "\n")
        self.served.stdin.flush()
        status, out, note = self.served.stdout.readline().split()
        return int(status), out, note


def verified(ours, status, text, folder):
    """What the command that checks the text of a `weave` says of it."""
    with open(os.path.join(folder, "t"), "wb") as file:
        file.write(text)
    words = ["check", "p.toml", "t"] if status == 0 else ["refute", "p.toml", "s.c", "t"]
    return said(ours, words, folder) == (0, b"yes\n", b"")


def main():
    read = argparse.ArgumentParser(description=__doc__.split("\n")[0])
    read.add_argument("ours")
    read.add_argument("other")
    read.add_argument("--count", type=int, default=1000)
    read.add_argument("--seed", type=int, default=1)
    read.add_argument("--splits", action="store_true")
    read.add_argument("--batch", action="store_true")
    asked = read.parse_args()
    folder = tempfile.mkdtemp(prefix="pairs-")
    ours = shlex.split(asked.ours)
    other = Other(shlex.split(asked.other), asked.batch, folder)
    maker = Maker(random.Random(asked.seed), asked.splits)
    kinds = collections.Counter()
    for done in range(asked.count):
        policy, source = maker.pair()
        for name, text in (("p.toml", policy), ("s.c", source)):
            with open(os.path.join(folder, name), "w", encoding="ascii") as file:
                file.write(text)
        status, out, note = said(ours, ["weave", "p.toml", "s.c"], folder)
        if (status, digest(out), digest(note)) != other.digests(["weave", "p.toml", "s.c"]):
            print("they differ at pair", done, "in", folder, status, note)
            return 1
        if status <= 1 and not verified(ours, status, out, folder):
            print("not verified: pair", done, "in", folder)
            return 1
        kinds[(status, " ".join(note.decode("ascii", "replace").split(" ")[:3]).strip() if note else "")] += 1
    print(asked.count, "pairs, none differs; each text passes check, each strategy refute")
    for (status, line), count in kinds.most_common():
        print("%6d  status %d  %s" % (count, status, line))
    return 0


if __name__ == "__main__":
    sys.exit(main())
