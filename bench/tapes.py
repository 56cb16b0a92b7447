#!/usr/bin/env python3
"""Plays and runs every tape of up to six words by a command, and writes its answers as the lists that the tests of `cw_play_tests` compare, or compares two commands.

    python3 bench/tapes.py COMMAND > crates/cw_play_tests/src/lists.rt
    python3 bench/tapes.py COMMAND --against COMMAND [--words 6] [--examples]

A command takes `weave`, `play` and `run` with their words, as `capweave` does; the first is to be another implementation's. The pairs are those of
`crates/cw_play_tests/src/texts.rt`. A list has a line a tape: the tape, how it ends, and the trace with `;` for each line feed. The tapes of a play are all of `skip` and `try`, those of a run all of
the environment's moves whose shorter fronts aren't told a bad move, since longer ones tell the same. With --examples the woven texts of `examples/` are run too,
and their sources played against the strategies that there are where entering may be refused (about 120 tapes each). Run at the top of the repository. Needs Python 3.8 and no package.
"""
import argparse
import ast
import concurrent.futures
import os
import re
import shlex
import subprocess
import sys
import tempfile

TEXTS = "crates/cw_play_tests/src/texts.rt"
PLAYS, RUNS, TOOLS = ("ONE", "TWO", "CALL"), ("STORED", "STOP", "RETURN"), ("find", "lines", "split")
WEAVERS, ENVIRONMENTS = "skip try".split(), "grant refuse on left right opened failed".split()
HEAD = """//! What a second program in another language answers for every tape of up to six words: `bench/tapes.py` writes this file. A line has the tape, how it
//! ends, and the trace with `;` for each line feed.
"""


class Pair:
    """A policy with a source and a strategy, or with a woven text, in files of their own."""

    def __init__(self, folder, name, policy, *texts):
        self.name, self.words = name, WEAVERS if len(texts) == 2 else ENVIRONMENTS
        self.files = []
        for number, text in enumerate((policy, *texts)):
            self.files.append(os.path.join(folder, f"{name}.{number}"))
            with open(self.files[-1], "wb") as file:
                file.write(text)


def answer(command, pair, tape):
    """The status and the text that a command answers for a tape."""
    with tempfile.NamedTemporaryFile() as file:
        file.write(" ".join(tape).encode())
        file.flush()
        play = "play" if pair.words is WEAVERS else "run"
        done = subprocess.run([*command, play, *pair.files, file.name], stdout=subprocess.PIPE, check=False)
        return done.returncode, done.stdout.decode()


def told(command, pair, most):
    """Each tape of up to so many words with what is answered, the shorter ones first."""
    with concurrent.futures.ThreadPoolExecutor(os.cpu_count()) as pool:
        tapes = [()]
        for length in range(most + 1):
            answers = list(pool.map(lambda tape: answer(command, pair, tape), tapes))
            yield from zip(tapes, answers)
            tapes = [tape + (word,) for tape, (_, text) in zip(tapes, answers) if not re.search(r"^bad move", text, re.M) for word in pair.words]


def line(tape, text):
    """A line of a list."""
    *trace, end = text.splitlines()
    return f"{' '.join(tape)}:{end}:{''.join(part + ';' for part in trace)}\n"


def texts():
    """The constants of the tests, by their names."""
    with open(TEXTS, encoding="utf-8") as file:
        return {name: ast.literal_eval(f'""{text}""').encode() for name, text in re.findall(r'pub const (\w+): &str =\s*("(?:\\.|[^"\\])*");', file.read())}


def woven(command, *files):
    """What a command weaves."""
    return subprocess.run([*command, "weave", *files], stdout=subprocess.PIPE, check=False).stdout


def read(name):
    with open(name, "rb") as file:
        return file.read()


def pairs(folder, command, examples):
    """The pairs of the tests, and those of the examples."""
    text = texts()
    assert text["STORED_POLICY"] == read("crates/capweave/data/policy.toml"), "the stored policy"
    assert text["STORED"] == read("crates/capweave/stdout"), "the stored woven text"
    for name in PLAYS:
        yield Pair(folder, name, text[name + "_POLICY"], text[name], text[name + "_STRATEGY"])
    for name in RUNS:
        yield Pair(folder, name, text.get(name + "_POLICY", text["STORED_POLICY"]), text[name])
    for name in TOOLS if examples else ():
        policy, source = read(f"examples/{name}.toml"), read(f"examples/{name}.c")
        yield Pair(folder, name + ".run", policy, read(f"examples/{name}.woven.c"))
        pair = Pair(folder, name, policy.replace(b"format = 1\n", b'format = 1\nrefusable = ["enter"]\n', 1), source)
        yield Pair(folder, name + ".play", *map(read, pair.files), woven(command, *pair.files))


def main():
    parser = argparse.ArgumentParser(description=__doc__, formatter_class=argparse.RawDescriptionHelpFormatter)
    parser.add_argument("command")
    parser.add_argument("--against")
    parser.add_argument("--words", type=int, default=6)
    parser.add_argument("--examples", action="store_true")
    options = parser.parse_args()
    command, other = shlex.split(options.command), options.against and shlex.split(options.against)
    different = 0
    with tempfile.TemporaryDirectory() as folder:
        if not other:
            print(HEAD, end="")
        for pair in pairs(folder, command, options.examples):
            answers = list(told(command, pair, options.words))
            if other:
                with concurrent.futures.ThreadPoolExecutor(os.cpu_count()) as pool:
                    others = list(pool.map(lambda tape: answer(other, pair, tape), [tape for tape, _ in answers]))
                apart = [tape for (tape, one), two in zip(answers, others) if one != two]
                different += len(apart)
                print(f"{pair.name}: {len(answers)} tapes, {len(apart)} differences", *map(" ".join, apart[:3]), sep="\n  ")
                continue
            kind = "PLAYS" if pair.words is WEAVERS else "RUNS"
            lines = "".join(line(tape, text) for tape, (_, text) in answers)
            print(f'\n/// The {kind.lower()} of `{pair.name}`.\npub const {pair.name}_{kind}: &str = "{lines}";')
    return 1 if different else 0


if __name__ == "__main__":
    sys.exit(main())
