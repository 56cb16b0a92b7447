#!/usr/bin/env python3
"""Measures whole commands beside another command's: how much each takes, and how it grows where one quantity doubles three times.

    python3 bench/whole.py crates/capweave/out/capweave --against "COMMAND" [--only WORD] [--runs 15]

Two tables are printed, in one run. The first has a row for each of twelve commands, with millions of instructions (all that the process executes, by `valgrind --tool=callgrind`) and
milliseconds (of the processor, the least of the runs, the two commands in turn), and how many times the other's each is. The second has sizes 1, 2, 4 and 8 of one quantity for each
command, the instructions of each size, and the exponent with which they grow: the slope of the line that fits their logarithms best, what the same command takes for a small text being left out. The
sources and policies are made here; woven texts and strategies are those that the program writes for them. The status is 1 where the two answer differently, where a row is over 1.5 times
in instructions or 2 in time, or where an exponent is above the other's by more than 0.1. --only takes the rows whose name has the word. Needs Linux, Python 3.8 and valgrind.
"""
import argparse
import math
import os
import re
import shlex
import subprocess
import sys
import tempfile

POLICY = 'format = 1\n[[at]]\nlabel = "done"\nnever = ["amb"]\n[[at]]\nlabel = "w3"\nmust = ["amb"]\n'
THREE_LINES = "int main(void)\n{ w3:; done:; return 0;\n}\n"
LINES = (
    ("    x = a[i] + (b * 3 - c) >> (7 & y);\n", 1),
    ("    if (x < 10 && y != b || !c) y += 2 + a[i + 1] * 3;\n", 2),
    ("    while (n > 0) { n--; put(n, x + 1, a[n]); }\n", 3),
    ('    /* one */ put(x, y, "s%d\\n", \'c\');\n', 1),
)


def large(size, functions=60, each=127, points=8_188):
    """A source of so many bytes and points: a comment, functions of loops and branches, and a `main` that calls each."""
    made, total, turn = [], 0, 0
    for number in range(functions):
        body, count = "", 2
        while count < each:
            line, more = LINES[turn % 4]
            body, count, turn = body + line, count + more, turn + 1
        made.append("static void f%d(int i)\n{\n    int x, y, n;\n%sw%d:\n    x = y;\n}\n" % (number, body, number))
        total += count + 3
    called = "".join("    f%d(1);\n" % number for number in range(functions))
    rest = "    x = y + z * 2 - 1;\n" * max(0, points - total - functions - 3)
    text = "static int a[64];\nint b, c;\n" + "".join(made) + "int main(void)\n{\n" + called + rest + "done:\n    return 0;\n}\n"
    return "/*" + "x" * max(0, size - len(text) - 4) + "*/" + text


def statements(size):
    """A source of about so many bytes in long expressions, of few points."""
    line = "x=" + "+".join("a[i]*(b-%d)" % number for number in range(40)) + ";"
    return "int main(void){w3:;" + line * (size // len(line)) + "done:;return 0;}"


def first_form(points, first="w3", last="done"):
    """Branches and loops around calls, of about so many points, between two labels."""
    parts = ["if(c%d){while(d%d)f%d();}else g%d();h%d();" % ((number,) * 5) for number in range(points // 5)]
    return "int main(void){" + first + ":;" + "".join(parts) + last + ":;return 0;}"


def ring(functions, each=8):
    """So many functions, each of which calls the next one and the last one the first."""
    made = ["void f%d(int x);" % number for number in range(functions)]
    made += ["void f%d(int x){if(x){%sf%d(x);}}" % (number, ";" * each, (number + 1) % functions) for number in range(functions)]
    return "\n".join(made) + "\nint main(void){w3:;f0(1);done:;return 0;}\n"


def labelled(labels):
    return "int main(void){" + "".join("l%d:;x=%d;" % (number, number) for number in range(labels)) + "return 0;}"


def naming(labels):
    """A rule of so many labels, which no run of `labelled` breaks: it ends with the first once more."""
    return "format = 1\n" + '[[rule]]\nname = "r"\nbad = "%s l0"\n' % " ".join("l%d" % number for number in range(labels))


def circling(states):
    """A rule of so many states that nothing breaks."""
    return "format = 1\n" + '[[rule]]\nname = "r"\nbad = "(%s)* a[amb,!amb]"\n' % " ".join(["a"] * states)


def several(rules):
    """So many rules that nothing breaks."""
    return "format = 1\n" + "".join('[[rule]]\nname = "r%d"\nbad = "a[amb,!amb]"\n' % number for number in range(rules))


def looped(points):
    """So many points behind a loop around a label: each is live in each state."""
    return "int main(void){while(c){a:;}" + ";" * points + "return 0;}"


def counting(names, turns):
    """A loop of so many turns. Of so many names each is changed in a turn, but the first where there are several: with the test that makes so many steps a turn, or two."""
    made = ["a%d" % number for number in range(names)]
    changed = made[1:] or made
    declared = "".join("int %s=0;" % name for name in made)
    return "int main(void){%sw3:;while(%s<%d){%s}done:;return 0;}" % (declared, made[-1], turns, "".join("%s++;" % name for name in changed))


def leaving(calls, size=0):
    """So many calls that aren't waited for, behind a comment that makes so many bytes of it: the form has 32 bytes and 4 points a call more."""
    text = "void f(int x){a:;}int main(void){" + "f(1);" * calls + "done:;return 0;}"
    return "/*" + "x" * max(0, size - len(text) - 4) + "*/" + text


DETACHED = 'format = 2\ndetached = ["f"]\n[[at]]\nlabel = "done"\nnever = ["amb"]\n'
SPLIT = 'format = 1\nsplit = ["f0"]\n[[at]]\nlabel = "done"\nnever = ["amb"]\n[[at]]\nlabel = "w3"\nmust = ["amb"]\n'
EIGHT = (1, 2, 4, 8)


class Case:
    """A command over texts. A word that begins with `<` stands for what `weave` writes for the policy and the source."""

    def __init__(self, words, policy=None, source=None, tape=None):
        self.words, self.texts = words.split(), {"p": policy, "s": source, "t": tape}


def weave(policy, source):
    return Case("weave p s", policy, source)


def procs(policy, source):
    return Case("procs p s", policy, source)


def check(policy, source):
    return Case("check p <", policy, source)


def refute(policy, source):
    return Case("refute p s <", policy, source)


def graph(source):
    return Case("graph s", None, source)


def sample(number):
    return Case("sample %d" % number)


def run(policy, source, tape):
    return Case("run p < t", policy, source, tape)


def play(policy, source, tape):
    return Case("play p s < t", policy, source, tape)


def values(policy, source):
    return Case("values p < t", policy, source, "capweave answers 1\nend\n")


BIG = large(262_144)
LOOP = "int main(void){w3:;while(c){a:;}done:;return 0;}"

ROWS = (
    ("`sample 400`", sample(400)),
    ("`weave` of 262,144 bytes, 8,188 points, 61 functions", weave(POLICY, BIG)),
    ("`graph` of it", graph(BIG)),
    ("a refusal at its last byte", weave(POLICY, BIG[:-1] + "}")),
    ("`check` of its woven text", check(POLICY, BIG)),
    ("`weave`, 1,000 points, met", weave(POLICY, first_form(1_000))),
    ("`weave`, 1,000 points, refuted", weave(POLICY, first_form(1_000, "done", "w3"))),
    ("`weave` of a source with 65,536 rows", weave(circling(62), looped(1_032))),
    ("a source of three lines", weave(POLICY, THREE_LINES)),
    ("`values`, 800,000 steps over one name", values(POLICY, counting(1, 400_000))),
    ("`values`, 808,000 steps over 101 names", values(POLICY, counting(101, 8_000))),
    ("`procs` of 210,944 bytes, 1,600 calls", procs(DETACHED, leaving(1_600, 210_944))),
)

GROWTHS = (
    ("`sample`", "functions", lambda n: sample(50 * n)),
    ("`weave`", "source bytes", lambda n: weave(POLICY, statements(32_000 * n))),
    ("`weave`", "bytes of a comment", lambda n: weave(POLICY, "/*" + "x" * (32_000 * n) + "*/" + THREE_LINES)),
    ("`weave`", "points", lambda n: weave(POLICY, first_form(1_000 * n))),
    ("`weave`", "functions", lambda n: weave(SPLIT, ring(50 * n))),
    ("`weave`", "labels", lambda n: weave(naming(7 * n), labelled(7 * n))),
    ("`weave`", "rules", lambda n: weave(several(4 * n), looped(400))),
    ("`weave`", "states", lambda n: weave(circling(7 * n), looped(400))),
    ("`weave`", "rows", lambda n: weave(circling(62), looped(129 * n))),
    ("`graph`", "source bytes", lambda n: graph(statements(32_000 * n))),
    ("`graph`", "points", lambda n: graph(first_form(1_000 * n))),
    ("`graph`", "functions", lambda n: graph(ring(50 * n))),
    ("`graph`", "labels", lambda n: graph(labelled(32 * n))),
    ("`check`", "source bytes", lambda n: check(POLICY, statements(32_000 * n))),
    ("`check`", "points", lambda n: check(POLICY, first_form(1_000 * n))),
    ("`check`", "functions", lambda n: check(SPLIT, ring(50 * n))),
    ("`check`", "labels", lambda n: check(naming(7 * n), labelled(7 * n))),
    ("`check`", "rules", lambda n: check(several(4 * n), looped(400))),
    ("`check`", "states", lambda n: check(circling(7 * n), looped(400))),
    ("`check`", "rows", lambda n: check(circling(62), looped(129 * n))),
    ("`procs`", "calls", lambda n: procs(DETACHED, leaving(200 * n))),
    ("`refute`", "points", lambda n: refute(POLICY, first_form(1_000 * n, "done", "w3"))),
    ("`run`", "entries of a tape", lambda n: run(several(1), LOOP, "left " * (4_000 * n))),
    ("`play`", "entries of a tape", lambda n: play(POLICY, first_form(1_000, "done", "w3"), "skip " * (4_000 * n))),
)


# What each command begins with: what it takes for a small text is no part of its growth.
SMALLEST = {
    "`sample`": sample(1),
    "`weave`": weave(POLICY, THREE_LINES),
    "`graph`": graph(THREE_LINES),
    "`check`": check(POLICY, THREE_LINES),
    "`procs`": procs(DETACHED, leaving(1)),
    "`refute`": refute(POLICY, first_form(1, "done", "w3")),
    "`run`": run(several(1), LOOP, ""),
    "`play`": play(POLICY, first_form(1, "done", "w3"), ""),
}


class Bench:
    """The commands, and a folder for the texts."""

    def __init__(self, commands, folder, runs):
        self.commands, self.folder, self.runs, self.wrong, self.began = commands, folder, runs, [], {}

    def made(self, case):
        """The words of a case, its texts being in files."""
        for name, text in case.texts.items():
            if text is not None:
                with open(os.path.join(self.folder, name), "w") as file:
                    file.write(text)
        words = []
        for word in case.words:
            if word == "<":
                with open(os.path.join(self.folder, "w"), "wb") as file:
                    subprocess.run([*self.commands[0], "weave", "p", "s"], cwd=self.folder, stdout=file, stderr=subprocess.DEVNULL, check=False)
                word = "w"
            words.append(word)
        return words

    def same(self, name, words):
        """Whether the commands answer the same."""
        answers = [subprocess.run([*command, *words], cwd=self.folder, stdout=subprocess.PIPE, stderr=subprocess.PIPE, check=False) for command in self.commands]
        if len({(one.returncode, one.stdout, one.stderr) for one in answers}) != 1:
            self.wrong.append("%s: the answers differ" % name)
        return answers[0].returncode

    def instructions(self, words):
        counts = []
        for command in self.commands:
            told = subprocess.run(["valgrind", "--tool=callgrind", "--callgrind-out-file=/dev/null", *command, *words], cwd=self.folder, stdout=subprocess.DEVNULL, stderr=subprocess.PIPE, check=False)
            counts.append(int(re.search(rb"Collected : (\d+)", told.stderr).group(1)))
        return counts

    def milliseconds(self, words):
        least = [math.inf] * len(self.commands)
        for _ in range(self.runs):
            for number, command in enumerate(self.commands):
                child = subprocess.Popen([*command, *words], cwd=self.folder, stdout=subprocess.DEVNULL, stderr=subprocess.DEVNULL)
                _, status, used = os.wait4(child.pid, 0)
                child.returncode = os.waitstatus_to_exitcode(status)
                least[number] = min(least[number], 1_000 * (used.ru_utime + used.ru_stime))
        return least

    def row(self, name, case):
        words = self.made(case)
        status = self.same(name, words)
        count, spent = self.instructions(words), self.milliseconds(words)
        line = "| %s | %d | %.1f |" % (name, status, count[0] / 1e6)
        if len(count) > 1:
            times, slower = count[0] / count[1], spent[0] / max(spent[1], 0.01)
            line += " %.1f | %.2f | %.2f | %.2f | %.2f |" % (count[1] / 1e6, times, spent[0], spent[1], slower)
            if times > 1.5:
                self.wrong.append("%s: %.2f times in instructions" % (name, times))
            if slower > 2:
                self.wrong.append("%s: %.2f times in time" % (name, slower))
        else:
            line += " %.2f |" % spent[0]
        print(line, flush=True)

    def growth(self, name, quantity, make):
        if name not in self.began:
            self.began[name] = self.instructions(self.made(SMALLEST[name]))
        counts = []
        for size in EIGHT:
            words = self.made(make(size))
            self.same("%s by %s, size %d" % (name, quantity, size), words)
            counts.append([max(1, count - start) for count, start in zip(self.instructions(words), self.began[name])])
        exponents = [slope([math.log(size) for size in EIGHT], [math.log(count[number]) for count in counts]) for number in range(len(self.commands))]
        line = "| %s | %s | %s |" % (name, quantity, " ".join("%.2f" % (count[0] / 1e6) for count in counts))
        line += " %.2f |" % exponents[0]
        if len(exponents) > 1:
            line += " %s | %.2f |" % (" ".join("%.2f" % (count[1] / 1e6) for count in counts), exponents[1])
            if exponents[0] > exponents[1] + 0.1:
                self.wrong.append("%s by %s: an exponent of %.2f beside %.2f" % (name, quantity, *exponents))
        print(line, flush=True)


def slope(xs, ys):
    """The slope of the line that fits best."""
    x, y = sum(xs) / len(xs), sum(ys) / len(ys)
    return sum((a - x) * (b - y) for a, b in zip(xs, ys)) / sum((a - x) ** 2 for a in xs)


def main():
    ask = argparse.ArgumentParser(description=__doc__, formatter_class=argparse.RawDescriptionHelpFormatter)
    ask.add_argument("program")
    ask.add_argument("--against", default="")
    ask.add_argument("--only", default="")
    ask.add_argument("--runs", type=int, default=15)
    asked = ask.parse_args()
    commands = [[os.path.abspath(asked.program)]] + ([shlex.split(asked.against)] if asked.against else [])
    with tempfile.TemporaryDirectory() as folder:
        bench = Bench(commands, folder, asked.runs)
        other = " Other | Times | Milliseconds | Other | Times |" if asked.against else " Milliseconds |"
        print("| Command | Status | Instructions, millions |" + other)
        print("|" + "---|" * (8 if asked.against else 4))
        for name, case in ROWS:
            if asked.only in name:
                bench.row(name, case)
        print()
        print("| Command | By | Instructions, millions, sizes 1, 2, 4, 8 | Exponent |" + (" Other | Exponent |" if asked.against else ""))
        print("|" + "---|" * (6 if asked.against else 4))
        for name, quantity, make in GROWTHS:
            if asked.only in name + " " + quantity:
                bench.growth(name, quantity, make)
    for line in bench.wrong:
        print(line, file=sys.stderr)
    return 1 if bench.wrong else 0


if __name__ == "__main__":
    sys.exit(main())
