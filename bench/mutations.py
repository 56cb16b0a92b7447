#!/usr/bin/env python3
"""Compares what two commands say of woven texts and strategies that were changed at random.

    python3 bench/mutations.py OURS OTHER [--count 1000] [--seed 1] [--command check|refute] [--each 8] [--splits] [--batch]

OURS and OTHER are commands that take `weave`, `check` and `refute`. A pair of a policy and a program is made at random, of both formats, with calls,
limits, opens and closes, with --splits also functions in processes of their own, and woven by both; what was written is changed (bytes, lines,
numbers, marks, words of rows), in as many ways as --each says, and given to `check` or `refute` of both. Status, output and note have to be the same. Where they differ the files are
left in the folder that is told, with the seed and the number of the text; the status is then 1. With --batch OTHER is started once, as in
`pairs.py`. Needs Python 3.8 and no package.
"""
import argparse
import collections
import os
import random
import re
import shlex
import shutil
import sys
import tempfile

from making import Maker
from pairs import Other, digest, said


def changed(chance, text):
    """The text with one change: a byte, a line, a number, a part, or something put in."""
    kind = chance.randint(0, 8)
    lines = text.split(b"\n")
    place = chance.randrange(len(lines))
    if kind == 0 and text:
        at = chance.randrange(len(text))
        return text[:at] + bytes([chance.choice(b"0123456789/*{}();,x a")]) + text[at + 1 :]
    if kind == 1 and text:
        at = chance.randrange(len(text))
        return text[:at] + text[at + 1 :]
    if kind == 2:
        del lines[place]
    elif kind == 3:
        other = chance.randrange(len(lines))
        lines[place], lines[other] = lines[other], lines[place]
    elif kind == 4:
        lines.insert(place, lines[place])
    elif kind == 5:
        words = lines[place].split(b" ")
        words[chance.randrange(len(words))] = chance.choice([b"bad", b"out", b"on", b"left", b"0x3", b"07", b"2-3"])
        lines[place] = b" ".join(words)
    elif kind == 6:
        numbers = list(re.finditer(rb"\d+", text))
        if numbers:
            number = chance.choice(numbers)
            value = max(0, int(number.group()) + chance.choice([-1, 1, 1, 5]))
            return text[: number.start()] + str(value).encode() + text[number.end() :]
    elif kind == 7:
        parts = list(re.finditer(rb"/\*cw\{\*/.*?/\*\}cw\*/", text))
        if parts:
            part = chance.choice(parts)
            rest = text[: part.start()] + text[part.end() :]
            if chance.random() < 0.6:
                at = min(len(rest), max(0, part.start() + chance.choice([-1, 1, 2, 3])))
                rest = rest[:at] + part.group() + rest[at:]
            return rest
    else:
        at = chance.randrange(len(text) + 1)
        return text[:at] + chance.choice([b" ", b"/*c*/", b"c;", b"/*cw{*/", b"/*}cw*/", b"#define X"]) + text[at:]
    return b"\n".join(lines)


def kind(status, out, note):
    """What the last table counts: the condition that fails, or the second word of the line."""
    words = (note or out).split()
    return b" ".join(words[-2:] if status == 1 else words[:2][-1:]).decode("ascii", "replace")


def main():
    read = argparse.ArgumentParser(description=__doc__.split("\n")[0])
    read.add_argument("ours")
    read.add_argument("other")
    read.add_argument("--count", type=int, default=1000)
    read.add_argument("--seed", type=int, default=1)
    read.add_argument("--command", choices=["check", "refute"], default="check")
    read.add_argument("--each", type=int, default=8)
    read.add_argument("--splits", action="store_true")
    read.add_argument("--batch", action="store_true")
    asked = read.parse_args()
    folder = tempfile.mkdtemp(prefix="mutations-")
    ours = shlex.split(asked.ours)
    other = Other(shlex.split(asked.other), asked.batch, folder)
    chance = random.Random(asked.seed)
    maker = Maker(chance, asked.splits)
    wanted = 0 if asked.command == "check" else 1
    words = ["check", "p.toml", "t"] if asked.command == "check" else ["refute", "p.toml", "s.c", "t"]
    kinds = collections.Counter()
    done = differ = 0

    def answers(words):
        """What OURS says, and whether OTHER says the same."""
        status, out, note = said(ours, words, folder)
        return status, out, note, (status, digest(out), digest(note)) == other.digests(words)

    while done < asked.count:
        policy, source = maker.pair()
        for name, text in (("p.toml", policy), ("s.c", source)):
            with open(os.path.join(folder, name), "w", encoding="ascii") as file:
                file.write(text)
        status, text, note, same = answers(["weave", "p.toml", "s.c"])
        if not same:
            differ += 1
            print("weave differs, seed", asked.seed, "before text", done, "in", shutil.copytree(folder, "%s-%d" % (folder, differ)), status, note)
        if status != wanted:
            continue
        for _ in range(asked.each):
            made = text
            for _ in range(chance.choice([0, 1, 1, 1, 2])):
                made = changed(chance, made)
            with open(os.path.join(folder, "t"), "wb") as file:
                file.write(made)
            status, out, note, same = answers(words)
            if not same:
                differ += 1
                print("they differ, seed", asked.seed, "text", done, "in", shutil.copytree(folder, "%s-%d" % (folder, differ)), status, out, note)
            done += 1
            kinds[(status, kind(status, out, note))] += 1
    print(done, "texts,", differ or "none", "differ" if differ > 1 else "differs")
    for (status, word), count in kinds.most_common():
        print("%6d  status %d  %s" % (count, status, word))
    return 1 if differ else 0


if __name__ == "__main__":
    sys.exit(main())
