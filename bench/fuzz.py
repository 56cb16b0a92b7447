#!/usr/bin/env python3
"""Makes inputs of every kind for every command, compares what two commands answer, keeps what differs and makes it small.

    python3 bench/fuzz.py OURS OTHER [--count 1000] [--seed 1] [--first 0] [--each 6] [--jobs 1] [--minutes M] [--only COMMAND,..] [--keep FOLDER] [--files FOLDER]

OURS and OTHER are commands that take the same words; a command that one of them doesn't know is left out, and told. For each number a pair of a policy and a source is made at random (`making.py`, `valued.py`,
`sources.py`), or with --files mostly of a C file of the folder: as it is, with labels put in, or with its statements in a source made here; the policy is spelled in one of the ways of TOML, and both are now and then changed. All
commands get it, and what OTHER answers goes into the others: changed woven texts, strategies and audits, answers, tapes, and steps that go on behind what was a move before, --each times for each. So a number makes
some tens of inputs, the same on every machine and in any order. Status, output and note have to be the same. Of audits with a violation the moves may differ: they have to be as many, and OTHER's `reaudit` has to take OURS. And what is
woven has to pass its check, a strategy its refutation, an audit its judgement; a form is the source with its insertions; a woven run over values makes the calls of a plain one.

What differs is made anew by a start of each command by itself, and left in the folder (--keep, default `fuzz-kept`) with its words, both answers, and the smallest files that were found for which both still differ in the same way. The status is then 1.
With --minutes no number is begun after so many. The last lines count the answers, and tell the inputs a minute of one processor. Needs Linux, cc, Python 3.8 and no package.
"""
import argparse
import collections
import multiprocessing
import os
import queue
import random
import re
import resource
import subprocess
import sys
import tempfile
import time
import traceback

from making import Maker, detached, fitting, form_of, labelled, mixed, respelled
from mutations import changed
from serving import Served, built, words_of
from sources import source as broad
from valued import Valued

SECONDS = 60
TOGETHER = 40
# How many of what differs each process makes small.
MADE_SMALL = 20
COMMANDS = ["weave", "graph", "check", "refute", "run", "play", "values", "procs", "world", "audit", "reaudit", "sample"]
YES = (0, b"yes\n", b"")
NONE = (None, b"", b"")
# What rests on the answer of a command.
BEHIND = {"weave": ["weave", "check", "refute", "run", "play", "values"], "audit": ["audit", "reaudit"], "procs": ["procs", "world"]}
MOVES = {"grant": 0, "refuse": 1, "on": 2, "left": 3, "right": 3, "opened": 4, "failed": 4}


def said(command, words, folder):
    """What a start of the command by itself answers, as `Served` tells it."""
    try:
        ran = subprocess.run(command + words, cwd=folder, stdin=subprocess.DEVNULL, capture_output=True, timeout=20 * SECONDS)
    except subprocess.TimeoutExpired:
        return None, b"", b""
    return ran.returncode, ran.stdout, ran.stderr


def parted(text):
    """An audit without its moves, and its moves."""
    lines = text.split(b"\n")
    moves = [line for line in lines if line in (b"on", b"left", b"right", b"opened", b"failed")]
    return [line for line in lines if line not in moves], moves


class Both:
    """Both commands, started once, in a folder."""

    def __init__(self, ours, other, tools):
        memory = "/dev/shm" if os.path.isdir("/dev/shm") else None
        self.kept = tempfile.TemporaryDirectory(prefix="fuzz-", dir=memory)
        self.folder = self.kept.name
        self.commands = words_of(ours), words_of(other)
        self.count = 0
        self.ours, self.other = (Served(command, tools, self.folder, SECONDS) for command in self.commands)

    def close(self):
        self.ours.close()
        self.other.close()
        self.kept.cleanup()

    def put(self, name, text):
        with open(os.path.join(self.folder, name), "wb", buffering=0) as file:
            file.write(text.encode() if isinstance(text, str) else text)

    def got(self, name):
        with open(os.path.join(self.folder, name), "rb") as file:
            return file.read()

    def files(self, words):
        return [name for name in dict.fromkeys(words[1:]) if os.path.isfile(os.path.join(self.folder, name))]

    def all_said(self, asked, compared):
        """What OURS says to the runs that are compared, None to the others, and what OTHER says to all."""
        ours = [words for words, is_compared in zip(asked, compared) if is_compared]
        for command, runs in ((self.ours, ours), (self.other, asked)):
            for words in runs:
                command.ask(words)
        mine = iter([self.ours.answer() for _ in ours])
        return [(next(mine) if is_compared else None, self.other.answer()) for is_compared in compared]

    def how(self, words, a, b):
        """How two answers differ, as a text that stays the same while files get smaller; None where they don't."""
        if a == b:
            return None
        if a[0] != b[0]:
            return "status %s, other %s, %s" % (a[0], b[0], told(words[0], b))
        if words[0] == "audit" and a[0] == 1 and a[2] == b[2]:
            mine, its = parted(a[1]), parted(b[1])
            if mine[0] == its[0] and len(mine[1]) == len(its[1]):
                self.put("audit-of-ours", a[1])
                if self.other.said(["reaudit"] + words[1:] + ["audit-of-ours"]) == YES:
                    return None
        return "%s with status %s" % ("note" if a[1] == b[1] else "output", a[0])

    def differs(self, words, alone=False):
        """How both differ, and both answers; `alone` by a start of each."""
        if alone:
            a, b = (said(command, words, self.folder) for command in self.commands)
        else:
            a, b = self.ours.said(words), self.other.said(words)
        return self.how(words, a, b), a, b


def told(command, answer):
    """The kind of an answer, for the table at the end."""
    status, out, note = answer
    if not note and command in ("weave", "procs", "graph", "audit"):
        return ""
    words = note.split()[:3] if note else out[out.rfind(b"\n", 0, -1) + 1 :].split()[:4]
    words = words[:1] if words[:1] == [b"violation"] else words
    return re.sub(r"\d+(:\d+)*|0x\w+", "N", b" ".join(words).decode("ascii", "replace"))[:40]


# ---- what is made


def spoilt(chance, text, odds):
    """Now and then the text with a change or two."""
    text = text.encode() if isinstance(text, str) else text
    if chance.random() < odds:
        for _ in range(chance.choice([1, 1, 2])):
            text = changed(chance, text)
    return text


def answers(chance):
    """A file of answers."""
    text = "capweave answers 1\n"
    for name in sorted(chance.sample(["argc", "c", "d", "h", "q", "x"], chance.randint(0, 5))):
        text += "name %s %d\n" % (name, value(chance))
    text += "".join("try %s\n" % chance.choice(["grant", "grant", "refuse"]) for _ in range(chance.randint(0, 3)))
    return text + "".join("call %d\n" % value(chance) for _ in range(chance.randint(0, 30))) + "end\n"


def value(chance):
    return chance.choice([0, 0, 1, 1, 1, 2, 3, -1, 5, 64, 2**63 - 1, -(2**63), chance.randint(-100, 100)])


class Walk:
    """Tapes of one text, or with `processes` steps, each of which goes on behind what was a move before."""

    def __init__(self, chance, processes=False):
        self.chance, self.processes, self.moves = chance, processes, {}

    def step(self):
        move = self.chance.choice(["grant", "grant", "refuse", "on", "on", "on", "on", "left", "right", "left", "right", "opened", "failed"])
        if self.processes:
            return "%d %s" % (self.chance.choice([0, 0, 0, 1, 1, 2, 3]), "fork" if self.chance.random() < 0.2 else move)
        return move

    def tape(self):
        """At most forty words: moves as far as they are known, and guesses."""
        words, at = [], self.moves
        for _ in range(self.chance.randint(5, 40)):
            good = [word for word, next in at.items() if next is not None] if at else []
            if not good and words and at is not None and self.chance.random() < 0.2:
                break
            if good and self.chance.random() < 0.8:
                word = self.chance.choice(good)
            else:
                word = next((word for word in (self.step() for _ in range(8)) if at is None or at.get(word, at) is not None), None) or self.step()
            words.append(word)
            at = at.get(word) if at is not None else None
        return words

    def learn(self, words, answer):
        """What a tape came to shows which of its words are moves."""
        bad = re.search(rb"bad (?:move|step) (\d+)\n$", answer[1])
        known, at = min(int(bad.group(1)), len(words)) if bad else len(words), self.moves
        if answer[0] not in (0, 1):
            return
        for word in words[:known]:
            at = at.setdefault(word, {})
            if at is None:
                return
        if bad and known < len(words):
            front, _, move = words[known].rpartition(" ")
            for other, kind in MOVES.items():
                if kind == MOVES.get(move):
                    at.setdefault(front + " " * bool(front) + other, None)
            at[words[known]] = None


class Pair:
    """The inputs of one number. Each round is a list of runs, whose answers come back."""

    def __init__(self, both, slot, number, seed, commands, each, files):
        self.both, self.slot, self.number, self.each = both, slot, number, each
        self.chance = random.Random("%s %d" % (seed, number))
        self.wanted = lambda *names: any(name in commands for name in names)
        self.all, self.files, self.wrong = commands, files, []
        self.count = 0

    def put(self, text):
        """Writes a file, and tells its name."""
        self.count += 1
        name = "%d.%d" % (self.slot, self.count)
        self.both.put(name, text)
        return name

    def sure(self, is_so, what, *more):
        if not is_so:
            self.wrong.append((what, more))

    def made(self):
        """A policy and a source, what kind of source it is, and the functions that it may detach."""
        chance, kind = self.chance, self.chance.random()
        if self.files and kind < 0.8:
            text = chance.choice(self.files)
            if kind < 0.3:
                return respelled(chance, Maker(chance, True).pair()[0]), mixed(chance, Maker(chance, True).pair()[1], text), "mixed"
            source = labelled(chance, text) if kind < 0.6 else text
            return fitting(chance, source), source, "file"
        if self.all == ["values"] or (self.wanted("values") and kind < 0.4):
            return Valued(chance, chance.random() < 0.5).pair() + ("valued",)
        if self.wanted("graph", "weave") and 0.4 < kind < 0.45:
            source = broad(chance, chance.choice([300, 600, 1500]), chance.randrange(4))
            return fitting(chance, source), source, "broad"
        return Maker(chance, chance.random() < 0.5).pair() + ("plain",)

    def changes(self, text):
        """A text changed in so many ways."""
        return [spoilt(self.chance, text, 0.93) for _ in range(self.each)]

    def rounds(self):
        chance = self.chance
        policy, source, kind = self.made()
        p = self.put(spoilt(chance, respelled(chance, policy) if chance.random() < 0.2 else policy, 0.04))
        s = self.put(spoilt(chance, source, 0.04))
        runs = {"weave": ["weave", p, s], "audit": ["audit", p, s]}
        if self.wanted("procs", "world"):
            runs["procs"], form = self.of_form(policy, source, kind)
        rest = [["graph", self.put(text)] for text in self.changes(source)[: chance.randint(0, 2)] + [source]]
        rest += [[chance.choice(["weave", "audit", "procs"]), self.put(text), s] for text in self.changes(policy)[: chance.randint(0, 2)]]
        rest += [["sample", chance.choice([str(chance.randint(0, 401)), "0%d" % chance.randint(0, 9), "-1", "1 "])]] * (chance.random() < 0.05)
        rest += [[chance.choice(self.all)] + chance.choices([p, s, "", "-", "--", "-x", "--help", "none", "7"], k=chance.randint(0, 4))] * (chance.random() < 0.05)
        firsts = [name for name in runs if self.wanted(*BEHIND[name])]
        got = yield [runs[name] for name in firsts] + [run for run in rest if self.wanted(run[0])]
        by = dict(zip(firsts, got))
        if by.get("weave", NONE)[0] == 0:
            yield from self.behind_woven(p, s, by["weave"][1])
        elif by.get("weave", NONE)[0] == 1:
            yield from self.behind_strategy(p, s, by["weave"][1])
        if self.wanted("values") and kind == "valued":
            yield from self.valued(p, s, by["weave"])
        if by.get("audit", NONE)[0] in (0, 1):
            yield from self.taken([["reaudit", p, s]], by["audit"][1], self.wanted("reaudit"))
        if "procs" in by:
            yield from self.behind_form(runs["procs"], by["procs"], form)

    def of_form(self, policy, source, kind):
        """A run of `procs` under a policy that detaches functions, and the form where that is sure."""
        chance = self.chance
        names = [name for name in ("f", "g", "h") if "int %s(" % name in source]
        if kind == "plain" and chance.random() < 0.8:
            source = re.sub(r"\bn=(?=[fgh]\()", "", source)
        names = chance.sample(names, chance.randint(1, len(names))) if names else ["f"]
        policy = detached(policy, names)
        run = ["procs", self.put(spoilt(chance, policy, 0.04)), self.put(spoilt(chance, source, 0.04))]
        is_sure = kind == "plain" and [self.both.got(name) for name in run[1:]] == [policy.encode(), source.encode()]
        return run, form_of(source, names) if is_sure else None

    def taken(self, takers, text, is_changed):
        """What verifies a text that was written says yes; and the same of changed ones."""
        name = self.put(text)
        runs = [words + [name] for words in takers]
        changes = self.changes(text) if is_changed else []
        got = yield runs + [words + [self.put(one)] for one in changes for words in takers]
        for words, answer in zip(runs, got):
            self.sure(answer == YES, "not taken", words)

    def behind_woven(self, p, s, text):
        w = self.put(text)
        yield from self.taken([["check", p]], text, self.wanted("check"))
        if self.wanted("run"):
            yield from self.walked(["run", p, w], Walk(self.chance))

    def behind_strategy(self, p, s, text):
        chance, y = self.chance, self.put(text)
        yield from self.taken([["refute", p, s]], text, self.wanted("refute"))
        if self.wanted("play"):
            tapes = ["".join(chance.choice(["skip\n", "try\n"]) for _ in range(chance.randint(0, 40))) for _ in range(self.each)]
            yield [["play", p, s, y, self.put(spoilt(chance, tape, 0.05))] for tape in tapes]

    def behind_form(self, run, answer, form):
        _, d, source = run
        if answer[0] == 0:
            plain = re.sub(rb"/\*cw\{\*/.*?/\*\}cw\*/", b"", answer[1], flags=re.S)
            self.sure(form is None or plain == form, "another form", run)
            yield from self.taken([["check", d]], answer[1], False)
            if self.wanted("world"):
                yield from self.walked(["world", d, self.put(answer[1])], Walk(self.chance, True))
        elif answer[0] == 1 and form is not None:
            yield from self.taken([["refute", d, self.put(form)]], answer[1], False)

    def walked(self, words, walk):
        """Tapes of `run` or steps of `world`, one after the other."""
        for _ in range(3 * self.each):
            tape = walk.tape()
            whole = "".join(word + "\n" for word in tape).encode()
            text = spoilt(self.chance, whole, 0.05)
            (answer,) = yield [words + [self.put(text)]]
            if text == whole:
                walk.learn(tape, answer)

    def valued(self, p, s, weave):
        """Answers for the text of a source under a policy that asks for nothing, and for the woven text where there is one."""
        chance, e = self.chance, self.put("format = 1\n")
        ((status, text, _),) = yield [["weave", e, s]]
        if status != 0:
            return
        texts = [self.put(spoilt(chance, answers(chance), 0.05)) for _ in range(self.each)]
        words = ["values", e, self.put(text)]
        plain = yield [words + [text] for text in texts]
        if weave[0] == 0:
            words = ["values", p, self.put(weave[1])]
            woven = yield [words + [text] for text in texts]
            for text, alone, one in zip(texts, plain, woven):
                self.sure(agree(one, alone), "a woven run is not the plain one", words + [text])


def agree(woven, plain):
    """Whether what is shown of a woven run is what its plain run shows, but for the number of tries and a stop after a refusal."""
    if woven[0] not in (0, 1) or plain[0] not in (0, 1):
        return woven[0] == plain[0]
    (calls, _, end), (others, _, its) = ((lines[:-3], lines[-3], lines[-2]) for lines in (answer[1].split(b"\n") for answer in (woven, plain)))
    return (calls, end) == (others, its) or (end.startswith(b"stop refused ") and calls == others[: len(calls)])


# ---- what differs is made small


def halves(parts, holds):
    """The parts less all that can go while `holds` of the rest, by smaller and smaller runs of them."""
    size = max(1, len(parts) // 2)
    while True:
        at, went = 0, False
        while at < len(parts):
            rest = parts[:at] + parts[at + size :]
            if holds(rest):
                parts, went = rest, True
            else:
                at += size
        if size == 1 and not went:
            return parts
        size = max(1, size // 2)


def smaller(both, words, how):
    """Makes the files of an input small while both commands still differ in this way."""
    for split in (rb"(?<=\n)", rb"(?<=[;{}])|(?=[{}])|(?<=\n)", rb"\b"):
        for name in both.files(words):

            def holds(parts):
                both.put(name, b"".join(parts))
                return both.differs(words)[0] == how

            before = both.got(name)
            parts = [part for part in re.split(split, before) if part]
            if len(parts) <= 4000 and holds(parts):
                both.put(name, b"".join(halves(parts, holds)))
                unbraced(both, name, holds)
            else:
                both.put(name, before)


def braces(text):
    """Where pairs of braces stand."""
    opened, pairs = [], []
    for at, byte in enumerate(text):
        if byte == ord("{"):
            opened.append(at)
        elif byte == ord("}") and opened:
            pairs.append((opened.pop(), at))
    return pairs


def unbraced(both, name, holds):
    """Takes blocks of a file away, or their braces, while `holds`."""
    text = both.got(name)
    if text.count(b"{") > 60:
        return
    went = True
    while went:
        went = False
        for first, last in sorted(braces(text)):
            for made in (text[:first] + text[last + 1 :], text[:first] + text[first + 1 : last] + text[last + 1 :]):
                if holds([made]):
                    text, went = made, True
                    break
            if went:
                break
    both.put(name, text)


def kept(both, keep, name, words, how):
    """Leaves an input that differs, whole and small, in a folder of that name; tells how."""
    folder = os.path.join(keep, name)
    os.makedirs(folder, exist_ok=True)
    files = both.files(words)
    first = [both.got(file) for file in files]
    alone, _, _ = both.differs(words, True)
    both.count += 1
    if alone and both.count <= MADE_SMALL:
        smaller(both, words, how)
    _, ours, other = both.differs(words, True)
    names = dict(zip(files, "abcd"))
    for file, text in zip(files, first):
        for end, content in ((".first", text), ("", both.got(file))):
            with open(os.path.join(folder, names[file] + end), "wb") as out:
                out.write(content)
        both.put(file, text)
    shown = " ".join(names.get(word, repr(word)) for word in words[1:])
    with open(os.path.join(folder, "answers"), "w", encoding="utf-8") as out:
        out.write("%s %s\n%s\nours: %s\nother: %s\n" % (words[0], shown, how, ours, other))
    return "%s: %s %s: %s%s" % (folder, words[0], shown, how, "" if alone else " (not by a start of each by itself)")


class Counted:
    """What came of the inputs of some numbers."""

    def __init__(self):
        self.kinds, self.pairs, self.inputs, self.differ = collections.Counter(), 0, 0, 0

    def add(self, other):
        self.kinds += other.kinds
        self.pairs, self.inputs, self.differ = self.pairs + other.pairs, self.inputs + other.inputs, self.differ + other.differ


def tried(both, asked, commands, files, numbers):
    """Tries all inputs of these numbers, round by round, so that each command gets many runs at once."""
    done = Counted()
    pairs = [Pair(both, slot, number, asked.seed, commands, asked.each, files) for slot, number in enumerate(numbers)]
    live = [(pair, pair.rounds(), None) for pair in pairs]
    while live:
        rounds = []
        for pair, rest, got in live:
            try:
                rounds.append((pair, rest, rest.send(got)))
            except StopIteration:
                done.pairs += 1
        runs = [words for _, _, part in rounds for words in part]
        compared = [words[0] in commands for words in runs]
        said_to_all = both.all_said(runs, compared)
        live, at = [], 0
        for pair, rest, part in rounds:
            mine = said_to_all[at : at + len(part)]
            at += len(part)
            for words, (a, b) in zip(part, mine):
                if a is not None:
                    done.inputs += 1
                    how = both.how(words, a, b)
                    done.kinds[(words[0], b[0], told(words[0], b))] += 1
                    if how:
                        done.differ += 1
                        name = "%s-%d-%d-%s" % (asked.seed, pair.number, done.differ, words[0])
                        print(kept(both, asked.keep, name, words, how), flush=True)
            live.append((pair, rest, [b for _, b in mine]))
    for pair in pairs:
        for what, runs in pair.wrong:
            done.differ += 1
            for words in runs:
                name = "%s-%d-wrong-%d-%s" % (asked.seed, pair.number, done.differ, words[0])
                print(kept(both, asked.keep, name, words, what), flush=True)
    return done


def works(asked, commands, files, tools, next_number, results):
    """One of the processes that try inputs."""
    try:
        goes_on(asked, commands, files, tools, next_number, results)
    except BaseException:
        results.put(traceback.format_exc())
    results.put(None)


def goes_on(asked, commands, files, tools, next_number, results):
    both = Both(asked.ours, asked.other, tools)
    until = time.monotonic() + 60 * asked.minutes if asked.minutes else None
    end = asked.first + asked.count
    while until is None or time.monotonic() < until:
        with next_number.get_lock():
            begin = next_number.value
            next_number.value = min(end, begin + TOGETHER)
        if begin >= end:
            break
        results.put(tried(both, asked, commands, files, range(begin, min(end, begin + TOGETHER))))
    both.close()


def known(both):
    """The commands that both take, and for each of the two those that it lacks."""
    lacking = []
    for served in (both.ours, both.other):
        lacking.append([name for name in COMMANDS if served.said([name])[2].startswith(b"usage: capweave COMMAND")])
    return [name for name in COMMANDS if name not in lacking[0] + lacking[1]], lacking


def read_files(folder):
    texts = []
    for name in sorted(os.listdir(folder)):
        if name.endswith(".c"):
            with open(os.path.join(folder, name), encoding="latin-1", newline="") as file:
                texts.append(file.read())
    return texts


def main():
    read = argparse.ArgumentParser(description=__doc__.split("\n")[0])
    read.add_argument("ours")
    read.add_argument("other")
    read.add_argument("--count", type=int, default=1000)
    read.add_argument("--seed", default="1")
    read.add_argument("--first", type=int, default=0)
    read.add_argument("--each", type=int, default=6)
    read.add_argument("--jobs", type=int, default=1)
    read.add_argument("--minutes", type=float)
    read.add_argument("--only")
    read.add_argument("--keep", default="fuzz-kept")
    read.add_argument("--files")
    asked = read.parse_args()
    files = read_files(asked.files) if asked.files else []
    whole, next_number, results = Counted(), multiprocessing.Value("q", asked.first), multiprocessing.Queue()
    with tempfile.TemporaryDirectory(prefix="fuzz-tools-") as tools:
        built(tools)
        both = Both(asked.ours, asked.other, tools)
        commands, lacking = known(both)
        both.close()
        for command, names in zip((asked.ours, asked.other), lacking):
            if names:
                print("left out, since %s doesn't know it: %s" % (command, ", ".join(names)), flush=True)
        commands = [name for name in commands if not asked.only or name in asked.only.split(",")]
        if not commands:
            print("no command is left")
            return 2
        before = resource.getrusage(resource.RUSAGE_CHILDREN)
        workers = [multiprocessing.Process(target=works, args=(asked, commands, files, tools, next_number, results)) for _ in range(asked.jobs)]
        for worker in workers:
            worker.start()
        left = asked.jobs
        while left:
            try:
                got = results.get(timeout=10)
            except queue.Empty:
                if any(worker.is_alive() for worker in workers):
                    continue
                print("the workers were ended")
                whole.differ += 1
                break
            if got is None:
                left -= 1
            elif isinstance(got, str):
                print(got)
                whole.differ += 1
            else:
                whole.add(got)
        for worker in workers:
            worker.join()
    used = resource.getrusage(resource.RUSAGE_CHILDREN)
    minutes = (used.ru_utime + used.ru_stime - before.ru_utime - before.ru_stime) / 60
    for (command, status, line), count in sorted(whole.kinds.items(), key=lambda it: (it[0][0], -it[1])):
        print("%7d  %-8s %-9s %s" % (count, command, status, line))
    print("%d inputs of %d pairs of seed %s, %d differ; %.2f minutes of a processor, %d inputs a minute" % (whole.inputs, whole.pairs, asked.seed, whole.differ, minutes, whole.inputs / max(minutes, 1e-6)))
    return 1 if whole.differ else 0


if __name__ == "__main__":
    sys.exit(main())
