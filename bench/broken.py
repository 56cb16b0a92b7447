#!/usr/bin/env python3
"""Breaks good files of each command everywhere: each line left out, doubled, exchanged, cut, joined; each byte dropped, doubled, changed; each number one more, one less; the file cut at each byte.

    python3 bench/broken.py PROGRAM [--against "COMMAND"] [--only WORD] [--jobs 1]

The other files of a run stay as they are. Each run has to end by no signal, with a status of docs/COMMANDS.md, one line on the note exactly where it has to have one, and nothing on the output but with status 0 or 1; with --against the other
command has to say the same. What doesn't is told and left in a folder, and the exit status is then 1. Needs Linux, cc, Python 3.8 and no package.
"""
import argparse
import collections
import multiprocessing
import os
import re
import subprocess
import sys
import tempfile

from nonsense import COMMANDS, FILES, OF_WOVEN, PLAIN, is_of_form
from refusals import ANSWERS, CALLS, DETACHED, GOOD, LEAVES, OPENS, POLICY, RUNS, STEPS
from running import Ran
from serving import Served, built, words_of

SECONDS = 60
TOGETHER = 400
BYTES = b"\0\t\n\r \"#'*,-./0179:;=AZ[]_a{}\x7f\x80\xff"
MAKERS = {"world": "procs", "reaudit": "audit"}


def changes(text):
    """The text broken in each way, each time at one place."""
    lines = text.splitlines(True)
    for at, line in enumerate(lines):
        front, rest = b"".join(lines[:at]), b"".join(lines[at + 1 :])
        yield from (front + rest, front + line + line + rest, front + line.rstrip(b"\n") + rest, front + line[: len(line) // 2] + rest, front + b" " + line + rest, front + b"\n" + line + rest)
        if at + 1 < len(lines):
            yield front + lines[at + 1] + line + b"".join(lines[at + 2 :])
    for at in range(len(text)):
        yield text[:at]
        yield text[:at] + text[at + 1 :]
        yield text[: at + 1] + text[at:]
        for byte in BYTES:
            yield text[:at] + bytes([byte]) + text[at + 1 :]
            yield text[:at] + bytes([byte]) + text[at:]
    for number in re.finditer(rb"\d+", text):
        for made in (b"0", b"%d" % (int(number.group()) + 1), b"-%s" % number.group(), b"0%s" % number.group(), b"4294967295", b"4294967296", b"18446744073709551615", b"18446744073709551616", b"9" * 400):
            yield text[: number.start()] + made + text[number.end() :]
        if int(number.group()):
            yield text[: number.start()] + b"%d" % (int(number.group()) - 1) + text[number.end() :]


def runs(program, folder):
    """Commands with the texts of their files: those of `nonsense.py`, and some of `refusals.py`."""
    for command, roles in COMMANDS.items():
        yield command, {role: (PLAIN if role == "policy" and command in OF_WOVEN else FILES[role]).encode() for role in roles}
    for command, policy, source, *more in RUNS:
        if more and more[1] == ("", "") and policy:
            for name, text in (("p", policy), ("s", source)):
                with open(os.path.join(folder, name), "w", encoding="ascii") as file:
                    file.write(text)
            made = subprocess.run(program + [MAKERS.get(command, "weave"), "p", "s"], cwd=folder, stdout=subprocess.PIPE, stderr=subprocess.DEVNULL)
            if made.returncode > 1:
                continue
            texts = [policy.encode()] + ([source.encode()] if command in ("refute", "play", "reaudit") else []) + [made.stdout] + ([more[0].encode()] if more[0] else [])
            yield command, dict(zip(COMMANDS[command], texts))
    for command, policy, source in (("weave", POLICY, GOOD), ("weave", POLICY, OPENS), ("graph", POLICY, CALLS), ("procs", DETACHED, LEAVES), ("audit", POLICY, GOOD)):
        yield command, {"policy": policy.encode(), "source": source.encode()} if command != "graph" else {"source": source.encode()}


class Broken:
    """The breaking of one file of one run."""

    def __init__(self, asked, tools, command, files, role):
        self.command, self.files, self.role = command, files, role
        self.commands = [words_of(asked.program)] + ([words_of(asked.against)] if asked.against else [])
        self.tools, self.counts, self.wrong = tools, collections.Counter(), []

    def tried(self):
        with tempfile.TemporaryDirectory(prefix="broken-", dir="/dev/shm" if os.path.isdir("/dev/shm") else None) as folder:
            for name, text in self.files.items():
                self.put(folder, name, text)
            served = [Served(command, self.tools, folder, SECONDS) for command in self.commands]
            made = list(dict.fromkeys(changes(self.files[self.role])))
            for at in range(0, len(made), TOGETHER):
                self.part(folder, served, made[at : at + TOGETHER])
            for one in served:
                one.close()
        return self

    def put(self, folder, name, text):
        with open(os.path.join(folder, name), "wb", buffering=0) as file:
            file.write(text)

    def part(self, folder, served, texts):
        for number, text in enumerate(texts):
            self.put(folder, "%d" % number, text)
        for one in served:
            for number in range(len(texts)):
                one.ask([self.command] + ["%d" % number if name == self.role else name for name in self.files])
        answers = [[one.answer() for _ in texts] for one in served]
        for number, text in enumerate(texts):
            status, out, note = answers[0][number]
            self.counts[status] += 1
            same = all(other[number] == (status, out, note) for other in answers[1:])
            if status is None or not is_of_form(Ran(status, out, note, 0, 0)) or not same:
                self.wrong.append((text, answers[0][number], answers[-1][number]))


def one(asked, tools, case):
    return Broken(asked, tools, *case).tried()


def main():
    read = argparse.ArgumentParser(description=__doc__, formatter_class=argparse.RawDescriptionHelpFormatter)
    read.add_argument("program")
    read.add_argument("--against")
    read.add_argument("--only", default="")
    read.add_argument("--jobs", type=int, default=1)
    asked = read.parse_args()
    count, wrong = 0, 0
    with tempfile.TemporaryDirectory(prefix="broken-tools-") as tools:
        built(tools)
        cases = [(command, files, role) for command, files in runs(words_of(asked.against or asked.program), tools) for role in files if asked.only in command + " " + role]
        with multiprocessing.Pool(asked.jobs) as pool:
            for done in pool.starmap(one, [(asked, tools, case) for case in cases], chunksize=1):
                count += sum(done.counts.values())
                print(done.command, done.role, len(done.files[done.role]), "bytes:", ", ".join("status %s: %d" % pair for pair in sorted(done.counts.items(), key=str)), flush=True)
                for text, ours, other in done.wrong:
                    wrong += 1
                    if wrong <= 40:
                        folder = tempfile.mkdtemp(prefix="broken-kept-")
                        for name, whole in dict(done.files, **{done.role: text}).items():
                            with open(os.path.join(folder, name), "wb") as file:
                                file.write(whole)
                        print("WRONG", done.command, done.role, "in", folder, ours[0], (ours[2] or ours[1])[:80], "other", other[0], (other[2] or other[1])[:80], flush=True)
    print(count, "runs,", wrong or "none", "wrong")
    return 1 if wrong else 0


if __name__ == "__main__":
    sys.exit(main())
