#!/usr/bin/env python3
"""Runs the program on files at each limit, and on files one past it, and says what came, in what time and memory.

    python3 bench/limits.py crates/capweave/out/capweave [--against "COMMAND"] [--only WORD] [--seconds 900]

Each quantity of the table of limits in docs/COMMANDS.md has pairs of files: with the first the quantity is at its number, and the answer is one that
speaks of no limit; with the second it is past it, and the answer is status 5 with the line `limit: QUANTITY`. Where no count just one past the limit
exists (states come in products), the next one that does stands. What has no such line (the steps, arrays, frames and numbers of `values`) has to end as docs/COMMANDS.md says; tapes, steps and answers of the greatest length are gone through to their end. With --against the answers of the other command have to be the same. Want of memory is
told by no run, since there is enough, but by one that gets 1 GB and asks for more. What is answered otherwise is marked, and the exit status is then 1. --only takes the quantities whose name has the
word. Needs Linux, Python 3.8 and no package.
"""
import argparse
import os
import shlex
import sys
import tempfile

from nonsense import known
from running import prepared, ran, written

RIGHTS = ["CAP_READ", "CAP_WRITE", "CAP_SEEK", "CAP_FSTAT", "CAP_FTRUNCATE", "CAP_FSYNC", "CAP_FCNTL", "CAP_IOCTL", "CAP_EVENT", "CAP_ACCEPT", "CAP_LISTEN", "CAP_LOOKUP"]
NEVER_TRUE = "a[amb,!amb]"
EMPTY = "int main(void){return 0;}"
ONE_LABEL = "int main(void){a:;return 0;}"


def policy(*parts, version=1):
    return "format = %d\n" % version + "".join(parts)


def rules(*bad):
    return "".join('[[rule]]\nname = "r%d"\nbad = "%s"\n' % pair for pair in enumerate(bad))


def at(label, key, *tests):
    return '[[at]]\nlabel = "%s"\n%s = [%s]\n' % (label, key, ", ".join('"%s"' % test for test in tests))


def descriptors(*names):
    return "".join('[[descriptor]]\nname = "%s"\n' % name for name in names)


def limits(name, count):
    """Limits of a descriptor to so many different single rights."""
    return "".join('[[limit]]\ndescriptor = "%s"\nkeep = ["%s"]\n' % (name, right) for right in RIGHTS[:count])


def cycles(first, second):
    """Rules that no word breaks, with as many states as the least common multiple, the start, and, where another label stands, one more."""
    return rules(*("(%s)* %s" % (" ".join("a" * length), NEVER_TRUE) for length in (first, second)))


def declared(count):
    return "".join("int v%d;" % number for number in range(count))


def variables(count):
    return descriptors(*("v%d" % number for number in range(count)))


def padded(text, size, filler):
    return text + filler * (size - len(text))


def weave(text, source):
    return "weave", {"p": text, "s": source}


def refute(text, source, strategy):
    return "refute", {"p": text, "s": source, "t": strategy}


def strategy(rows, version=1, states=2):
    return "capweave strategy %d\nstates %d\n" % (version, states) + "".join(rows) + "end\n"


def table(rows):
    return "/*cw{*/\n#include \"capweave.h\"\n#define CW_LIMITS(X)\nCW_TABLE(1,2,0)\nCW_MEM(0,0,0x3)\n" + "".join(rows) + "CW_DONE\n/*}cw*/int main(void){/*cw{*/CW_ENTRY(0);/*}cw*/return 0;}"


def nested(before, middle, after, count):
    return "int main(void){" + before * count + middle[0] + after * count + middle[1:] + "return 0;}"


class Woven:
    """A run of `check`, or with a tape of `run`, `values` or `world`, on what `weave` writes for a pair, edited. `ends` is what the output has to end with, at and past the limit, or the note; `memory` how many KiB there are."""

    def __init__(self, text, source, edit=lambda woven: woven, tape=None, command="run", ends=None, memory=0):
        self.text, self.source, self.edit, self.tape, self.command, self.ends, self.memory = text, source, edit, tape, command, ends, memory


def bytes_of_files():
    for command in ("weave", "graph"):
        yield "source bytes", [(command, {"p": policy(), "s": padded(EMPTY, size, " ")}) for size in (262_144, 262_145)]
    yield "source bytes", [Woven(policy(), padded(EMPTY, 262_144, " "), lambda woven, more=more: woven + more) for more in (b"", b" ")]
    yield "policy bytes", [weave(padded(policy() + "#", size, "x"), EMPTY) for size in (65_536, 65_537)]
    for version, most in ((1, 16_777_216), (2, 33_554_432)):
        text = policy(version=version)
        yield "file bytes", [refute(text, EMPTY, " " * size) for size in (most, most + 1)]
        yield "file bytes", [("check", {"p": text, "t": " " * size}) for size in (most, most + 1)]
        yield "file bytes", [Woven(text, EMPTY, tape=padded(" on grant" * (most // 9), size, "\n")) for size in (most, most + 1)]
    yield "file bytes", [refute(policy(version=version), EMPTY, " " * 16_777_217) for version in (2, 1)]
    for version, most in ((1, 16_777_216), (2, 33_554_432)):
        text = policy(version=version)
        yield "file bytes", [Woven(text, EMPTY, tape=padded("0 on\n" * (most // 5), size, "\n"), command="world") for size in (most, most + 1)]
        answers = "capweave answers 1\n" + "call -9\n" * ((most - 23) // 8)
        yield "file bytes", [Woven(text, EMPTY, tape=padded(answers, size - 4, "x") + "end\n", command="values") for size in (most, most + 1)]
        yield "file bytes", [("reaudit", {"p": text, "s": EMPTY, "t": "capweave audit 1\n" + " " * (size - 17)}) for size in (most, most + 1)]


def parts_of_policies():
    yield "descriptors", [weave(policy(descriptors("0", "1", "2"), variables(count)), declared(count) + EMPTY) for count in (5, 6)]
    equal = '[[limit]]\ndescriptor = "0"\nkeep = ["CAP_READ"]\n'
    yield "limits", [weave(policy('[[descriptor]]\nname = "0"\nrights = ["CAP_READ"]\n', equal * count), EMPTY) for count in (12, 13)]
    yield "rules", [weave(policy(rules(*[NEVER_TRUE] * count)), ONE_LABEL) for count in (32, 33)]
    yield "rule positions", [weave(policy(rules(" ".join("a" * count))), ONE_LABEL) for count in (63, 64)]
    held = ["%s%s:%s" % (truth, name, right) for name in "01" for right in RIGHTS for truth in ("", "!")]
    tests = [at("a", "never", *held[:30]) + rules("a"), at("a", "never", *held[:32])]
    yield "rule positions", [weave(policy(descriptors("0", "1"), text), ONE_LABEL) for text in tests]
    yield "nesting", [weave(policy(rules("(" * count + NEVER_TRUE + ")" * count)), ONE_LABEL) for count in (64, 65)]


def parts_of_sources():
    statements = ("{", "}"), ("if(c)", ""), ("if(c);else ", ""), ("while(c)", ""), ("do ", "while(c);"), ("for(;;)", "")
    expressions = ("(", ")"), ("- ", ""), ("!", ""), ("x+", ""), ("x=", ""), ("a[", "]"), ("sizeof ", "")
    for before, after in statements + expressions:
        both = [nested(before, ";" if (before, after) in statements else "x;", after, count) for count in (63, 64)]
        for command in ("graph", "weave"):
            yield "nesting", [(command, {"p": policy(), "s": source}) for source in both]
    yield "nesting", [Woven(policy(), EMPTY, lambda woven, count=count: woven.replace(b"return", b"{" * count + b";" + b"}" * count + b"return")) for count in (63, 64)]
    for command in ("graph", "weave"):
        functions = ["".join("void f%d(void){}" % number for number in range(count)) + EMPTY for count in (511, 512)]
        yield "functions", [(command, {"p": policy(), "s": source}) for source in functions]
        labels = ["int main(void){" + "".join("l%d:;" % number for number in range(count)) + "return 0;}" for count in (256, 257)]
        yield "labels", [(command, {"p": policy(), "s": source}) for source in labels]
        points = ["int main(void){" + ";" * count + "return 0;}" for count in (8_189, 8_190)]
        yield "points", [(command, {"p": policy(), "s": source}) for source in points]
    yield "points", [refute(policy(), source, strategy([])) for source in points]
    yield "points", [Woven(policy(), points[0], lambda woven, more=more: woven.replace(b"return", more + b"return")) for more in (b"", b";")]


def states():
    at_128, at_132 = variables(6), variables(3) + limits("v0", 9) + limits("v1", 1)
    pairs = [(policy(at_128), declared(6) + EMPTY), (policy(at_132), declared(3) + EMPTY)]
    yield "rights states", [weave(*pair) for pair in pairs]
    yield "rights states", [refute(*pair, strategy([])) for pair in pairs]
    loops = ["int main(void){while(c){a:;%s}return 0;}" % more for more in ("", "b:;")]
    yield "policy states", [weave(policy(cycles(7, 9)), source) for source in loops]
    yield "policy states", [refute(policy(cycles(7, 9)), source, strategy([])) for source in loops]
    products = [(1, 3, 7, 9), (1, 5, 6, 7)], [(2, 7, 7, 9), (2, 8, 7, 8)]
    for pair in products:
        texts = [policy(descriptors("0"), limits("0", count), cycles(first, second), version=version) for version, count, first, second in pair]
        yield "product states", [weave(text, loops[0]) for text in texts]
        yield "product states", [refute(text, loops[0], strategy([], version=pair[0][0])) for text in texts]
    text = policy(descriptors("0"), limits("0", 3), cycles(7, 9))
    sources = ["int main(void){a:;" + ";" * count + "return 0;}" for count in (2_027, 2_028)]
    yield "positions times states", [weave(text, source) for source in sources]
    yield "positions times states", [refute(text, source, strategy([])) for source in sources]


def cells():
    """One function that is wanted in eleven contexts, and a loop in which `main` may stay."""
    text = policy(*('[[descriptor]]\nname = "%s"\nrights = ["CAP_READ"]\n' % name for name in ("0", "1", "2", "v")))
    text += "".join('[[limit]]\ndescriptor = "%d"\nkeep = []\n' % number for number in range(3))
    text += "".join(at("l%d" % number, "must", "%d:CAP_READ" % number) for number in range(3)) + at("l3", "must", "amb")
    called = "void f(int x){if(c){for(;;){" + "".join("x%d:;" % number for number in range(240)) + ";" * 3_536 + "}}}"
    calls = "".join("f(1);l%d:;" % number for number in range(4))
    yield "cells", [weave(text, "int v;" + called + "int main(void){if(c){for(;;){" + ";" * count + "}}" + calls + "return 0;}") for count in (19, 20)]


def rows():
    """A table whose points are live with the sixteen outcomes of four opens; a strategy against 54 choices of the weaver; and files."""
    opens = "".join("v%d=o();" % number for number in range(4))
    sources = [declared(4) + "int main(void){" + ";" * count + opens + ";" * 4_091 + "return 0;}" for count in (0, 1)]
    yield "rows", [weave(policy(variables(4)), source) for source in sources]
    yield "rows", [Woven(policy(variables(4)), sources[0], lambda woven, more=more: woven.replace(b"CW_DONE", more + b"CW_DONE")) for more in (b"", b"CW_BACK(65535,0,0,0,0)\n")]
    text = policy(variables(3), *('[[limit]]\ndescriptor = "v%d"\nkeep = [%s]\n' % (number, kept) for number in range(3) for kept in ('"CAP_READ", "CAP_WRITE"', '"CAP_READ"')))
    text += at("a", "never", "amb") + at("b", "must", "amb") + at("d", "must", "amb")
    opens = "".join("v%d=o();" % number for number in range(3))
    yield "rows", [weave(text, declared(3) + "int main(void){if(c){d:;}" + ";" * count + opens + "x:;" + ";" * 1_185 + "a:;b:;return 0;}") for count in (28, 29)]
    for version in (1, 2):
        made = [["%d 0 0 0x0 bad\n" % number for number in range(count)] for count in (65_536, 65_537)]
        yield "rows", [refute(policy(version=version), EMPTY, strategy(many, version)) for many in made]
    backs = ["%d 0 0 0x0 into 0 0=0\n" % number for number in range(32_768)]
    yield "rows", [refute(policy(), EMPTY, strategy(backs + more)) for more in ([], ["32768 0 0 0x0 bad\n"])]
    live = ["CW_LIVE(%d,0)\n" % number for number in range(65_536)]
    yield "rows", [("check", {"p": policy(), "t": table(live[:count])}) for count in (65_535, 65_536)]


def forms():
    """Calls that aren't waited for: each adds 32 bytes, four points, and four statements around it."""
    text = policy('detached = ["f"]\n', version=2)
    called = "void f(int x){}int main(void){"
    one = called + "f(1);return 0;}"
    yield "source bytes", [("procs", {"p": text, "s": padded(one, size, " ")}) for size in (262_112, 262_113)]
    yield "nesting", [("procs", {"p": text, "s": called + "{" * deep + "f(1);" + "}" * deep + "return 0;}"}) for deep in (59, 60)]
    yield "points", [("procs", {"p": text, "s": called + "f(1);" * calls + "return 0;}"}) for calls in (1_637, 1_638)]


def doubling(functions, main):
    """Functions each of which calls the next one twice, the last a step; `main` is told how many moves a call of each takes."""
    made = ["void f%d(int x);" % number for number in range(functions)]
    made += ["void f%d(int x){f%d(1);f%d(1);}" % (number, number + 1, number + 1) for number in range(functions - 1)] + ["void f%d(int x){;}" % (functions - 1)]
    inside = [2]
    while len(inside) < functions:
        inside.insert(0, 1 + 2 * (inside[0] + 2))
    return "\n".join(made) + "\n" + main(lambda number: inside[number] + 2)


def nearest(moves, functions=14):
    """A source whose one violation comes after so many moves: calls of doubling functions, and steps."""

    def main(cost):
        left, calls = moves - 1, ""
        for number in range(functions):
            while left >= cost(number):
                calls, left = calls + "f%d(1);" % number, left - cost(number)
        return "int main(void){%s%sa:;return 0;}\n" % (calls, ";" * left)

    return doubling(functions, main)


def looped(steps, behind, length, first=0, bad=False):
    """A pair whose audit has first + (length + 2) * (steps + behind + 5) rows, none of which violates; or with `bad` a violation, and first + length * (steps + behind + 5) - 1 rows."""
    source = "int main(void){%swhile(c){%sa:;}%sreturn 0;%s}\n" % (";" * first, ";" * steps, ";" * behind, "" if bad else "b:;")
    return policy(rules(" ".join(["a"] * length) + ("" if bad else " b"))), source


def audits():
    for command in ("audit",):
        yield "rows", [(command, dict(zip("ps", looped(1_000, 19, 62, first)))) for first in (0, 1)]
        yield "rows", [(command, dict(zip("ps", looped(1_000, 35, 63, first, True)))) for first in (17, 18)]
        yield "audit moves", [(command, {"p": policy(at("a", "never", "amb")), "s": nearest(moves)}) for moves in (65_536, 65_537)]
        far = doubling(100, lambda cost: "int main(void){f0(1);%sa:;return 0;}\n" % (";" * 30))
        yield "audit moves", [(command, {"p": policy(at("a", key, "amb")), "s": far}) for key in ("must", "never")]


def valued(source, ends, answers="", memory=0):
    return Woven(policy(), source, tape="capweave answers 1\n" + answers + "end\n", command="values", ends=ends, memory=memory)


def values():
    """What a run over values ends with: so many steps, arrays of so many elements, frames until the steps or the memory are spent; and the greatest numbers there are."""
    looped = "int main(void){int i=0;while(i<499997)i=i+1;;%sreturn 0;}"
    yield "steps of values", [valued(looped % more, ends) for more, ends in (("", b"\nended\n"), (";", b"\nstop steps\n"))]
    yield "steps of values", [valued("int main(void){int i=0;for(;;){i=i+1;put(i);%s}}" % more, b"\nstop steps\n", "call 1\n" * 400_000) for more in ("", ";")]
    yield "array elements", [valued("int main(void){int a[%d];a[65535]=7;put(a[65535]);return 0;}" % size, ends, "call 0\n") for size, ends in ((65_536, b"\nended\n"), (65_537, b"\nstop form 1:22\n"))]
    yield "array elements", [valued("int a[%d];int main(void){return 0;}" % size, ends) for size, ends in ((65_536, b"\nended\n"), (65_537, b"\nstop form 1:7\n"))]
    called = "int f(int x){%sf(x+1);return x;}int main(void){f(1);return 0;}"
    yield "frames of values", [valued(called % "", b"\nstop steps\n"), valued(called % "int a[65536];a[65535]=x;", b"memory\n", memory=1_000_000)]
    greatest = "int main(void){int x=9223372036854775807;put(x%s);return 0;}"
    yield "numbers of values", [valued(greatest % more, ends, "call -9223372036854775808\n") for more, ends in (("", b"\nended\n"), ("+1", b"\nstop overflow 1:46\n"))]


def longest():
    """Tapes, steps and answers of the greatest length that are gone through to their end."""
    for version, most in ((1, 16_777_216), (2, 33_554_432)):
        text = policy(version=version)
        yield "file bytes", [Woven(text, "int main(void){for(;;);}", tape=padded("on " * (most // 3), size, " "), ends=ends) for size, ends in ((most, b"tape spent\n"), (most + 1, None))]
        forks = "0 on\n" + "0 on\n0 fork\n" * ((most - 5) // 12)
        yield "file bytes", [Woven(text, "int main(void){for(;;)if(!fork())for(;;);}", tape=padded(forks, size, "\n"), command="world", ends=ends) for size, ends in ((len(forks), b"\ndone %d\n" % (forks.count("f") + 1)), (most + 1, None))]
    many = "call 1\n" * ((most - 23) // 7)
    yield "file bytes", [Woven(text, "int main(void){for(;;)put(1);}", tape="capweave answers 1\n" + many + more + "end\n", command="values", ends=ends) for more, ends in (("", b"\nstop steps\n"), ("call 1\n", None))]


def gathered():
    for make in (bytes_of_files, parts_of_policies, parts_of_sources, states, cells, rows, forms, audits, values, longest):
        yield from make()


class Run:
    """The runs of one command, in a folder."""

    def __init__(self, asked):
        self.asked, self.wrong = asked, 0
        self.folder = tempfile.mkdtemp(prefix="limits-")
        self.takes = known(shlex.split(asked.program), self.folder)
        self.commands = [shlex.split(asked.program)] + ([shlex.split(asked.against)] if asked.against else [])

    def made(self, case):
        """The words and files of a case."""
        if not isinstance(case, Woven):
            return case
        written(self.folder, {"p": case.text, "s": case.source})
        woven = ran(self.commands[-1] + ["weave", "p", "s"], self.folder, seconds=self.asked.seconds)
        files = {"p": case.text, "t": case.edit(woven.out)}
        if case.tape is None:
            return "check", files
        return case.command, dict(files, u=case.tape)

    def case(self, quantity, case, past):
        command, files = self.made(case)
        if command not in self.takes:
            return
        if command == "graph":
            files = {"s": files["s"]}
        written(self.folder, files)
        ends, memory = (case.ends, case.memory) if isinstance(case, Woven) else (None, 0)
        answers = [ran(one + [command] + list(files), self.folder, seconds=self.asked.seconds, memory=memory) for one in self.commands]
        ours = answers[0]
        told = (ours.status, ours.out, ours.note)
        if ends:
            good = told == (8, b"", ends) if memory else ours.status in (0, 1) and not ours.note and ours.out.endswith(ends)
        else:
            good = told == (5, b"", b"limit: %s\n" % quantity.encode()) if past else ours.status not in (None, 5, 8) and ours.status >= 0
        same = all((other.status, other.out, other.note) == told for other in answers[1:])
        first = (ours.note or (ends and ours.out.rsplit(b"\n", 2)[-2]) or ours.out)[:48].split(b"\n")[0].decode("ascii", "replace")
        times = " ".join("%9.2f s %9d KiB" % (answer.seconds, answer.kilobytes) for answer in answers)
        mark = "" if good and same else "  <-- WRONG" if not good else "  <-- the other says %s" % (answers[1].note or answers[1].out)[:60]
        self.wrong += bool(mark)
        print("%-23s %-7s %-4s status %s %-40s %s%s" % (quantity, command, "past" if past else "at", ours.status, first, times, mark), flush=True)


def main():
    read = argparse.ArgumentParser(description=__doc__, formatter_class=argparse.RawDescriptionHelpFormatter)
    read.add_argument("program")
    read.add_argument("--against")
    read.add_argument("--only", default="")
    read.add_argument("--seconds", type=float, default=900)
    prepared()
    run = Run(read.parse_args())
    pairs = 0
    for quantity, cases in gathered():
        if run.asked.only in quantity:
            pairs += 1
            for past, case in enumerate(cases):
                run.case(quantity, case, bool(past))
    print(pairs, "pairs,", run.wrong or "none", "wrong")
    return 1 if run.wrong else 0


if __name__ == "__main__":
    sys.exit(main())
