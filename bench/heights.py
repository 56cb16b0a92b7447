#!/usr/bin/env python3
"""Times `weave` where it has most cells, or `audit` where its table has most rows, and their memory: a row for each input, beside another command.

    python3 bench/heights.py crates/capweave/out/capweave [--audits] [--against "COMMAND"] [--runs 5]

*long*: one function, a loop of 8,000 empty statements and a label, and one rule of 63 times that label: 1,009,260 cells in one context, heights up to 504,317; the answer is
`limit: rows`. *many*: three functions, and calls whose promises shrink in turn: 4,171,230 cells in 129 contexts; the answer is a strategy of 3.5 MB. With --audits a loop of 1,000 empty
statements and a label, and a rule of 62 or 63 times that label: *none* violates, with 65,536 rows; the nearest violation is *far*, after 63,205 moves, before which are 65,536 rows; and *over*,
one row too many, the answer being `limit: rows`. *calls* is a loop around a label, rules that count it up to 63, and 1,000 calls behind it: 64,512 rows, nearly all of them at calls. The audits of
*none* and *far* are taken by `reaudit`, too. The milliseconds are the least of the runs, of the processor, the commands in turn; the memory is the greatest resident size of the whole program, in
bytes a cell or row. The status is 1 where an answer isn't the one that is due, or not the other command's; with --audits also where the program takes more than 1.5 times the other's milliseconds
for an audit. Needs Linux, Python 3.8 and no package.
"""
import argparse
import os
import shlex
import sys
import tempfile

from limits import cycles, looped, policy
from running import prepared, ran, written

POLICY = 'format = 1\n[[rule]]\nname = "r"\nbad = "%s"\n' % " ".join(["a"] * 63)
LONG = "int main(void){while(c){" + ";" * 8000 + "a:;}return 0;}"
MANY = (
    "void f(int x){while(c){" + ";" * 500 + "a:;}}\nvoid g(int x){a:;}\nint main(void){"
    + "f(1);g(1);" * 2 + "return 0;}\n"
)
# The name, the words, the policy, the source, the number of cells or rows, and the status that is due. `a` is the answer of the input before.
HEIGHTS = (
    ("long", "weave p s", POLICY, LONG, 1_009_260, 5),
    ("many", "weave p s", POLICY, MANY, 4_171_230, 1),
)
NONE, FAR, OVER = looped(1_000, 19, 62), looped(1_000, 35, 63, 17, True), looped(1_000, 19, 62, 1)
CALLS = policy(cycles(7, 9)), "void f(int x){;}int main(void){while(c){a:;}" + "f(1);" * 1_000 + "return 0;}"
AUDITS = (
    ("none", "audit p s", *NONE, 65_536, 0),
    ("`reaudit` of it", "reaudit p s a", *NONE, 65_536, 0),
    ("far", "audit p s", *FAR, 65_536, 1),
    ("`reaudit` of it", "reaudit p s a", *FAR, 65_536, 0),
    ("over", "audit p s", *OVER, 65_537, 5),
    ("calls", "audit p s", *CALLS, 64_512, 0),
)


def timed(commands, folder, runs):
    """Of each command its answer, its least milliseconds and its greatest bytes."""
    told = [[ran(command, folder) for command in commands] for _ in range(runs)]
    return [(every[0][:3], 1000 * min(one.seconds for one in every), 1024 * max(one.kilobytes for one in every)) for every in zip(*told)]


def main():
    ask = argparse.ArgumentParser(description=__doc__, formatter_class=argparse.RawDescriptionHelpFormatter)
    ask.add_argument("program")
    ask.add_argument("--audits", action="store_true")
    ask.add_argument("--against", default="")
    ask.add_argument("--runs", type=int, default=5)
    asked = ask.parse_args()
    commands = [[os.path.abspath(asked.program)]]
    if asked.against:
        commands.append(shlex.split(asked.against))
    wrong, what = [], "row" if asked.audits else "cell"
    others = " Other's milliseconds | Times | Other's bytes a %s |" % what if asked.against else ""
    print("| Input | %ss | Milliseconds | Bytes a %s |" % (what.capitalize(), what) + others)
    print("|" + "---|" * (7 if asked.against else 4))
    prepared()
    with tempfile.TemporaryDirectory() as folder:
        for name, words, rules, source, cells, status in AUDITS if asked.audits else HEIGHTS:
            written(folder, {"p": rules, "s": source})
            told = timed([[*command, *words.split()] for command in commands], folder, asked.runs)
            written(folder, {"a": told[0][0][1]})
            line = f"| {name} | {cells:,} | {told[0][1]:.0f} | {told[0][2] / cells:.1f} |"
            if asked.against:
                times = told[0][1] / told[1][1]
                line += f" {told[1][1]:.0f} | {times:.1f} | {told[1][2] / cells:.1f} |"
                if words.startswith("audit") and times > 1.5:
                    wrong.append(f"{name}: {times:.2f} times the other's milliseconds")
            print(line, flush=True)
            if told[0][0][0] != status or any(one[0] != told[0][0] for one in told):
                wrong.append(f"{name}: an answer isn't the one that is due")
    for line in wrong:
        print(line)
    return 1 if wrong else 0


if __name__ == "__main__":
    sys.exit(main())
