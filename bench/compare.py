#!/usr/bin/env python3
"""Compares what a command answers for random sources with what others answer.

    python3 bench/compare.py "crates/capweave/out/capweave weave crates/capweave/data/policy.toml" --gcc
    python3 bench/compare.py COMMAND --against COMMAND [--batch] [--count 2000] [--seed 1] [--keep FOLDER]

Each command gets a source's name behind its own words. Half of the sources are valid; of a quarter a few tokens are changed, and in a
quarter something is put in that may break a rule of scope. Both commands must answer with one status and one first line on standard
error; where the first takes a source the other must take it too (status 0, 1 or 4). With --gcc,
`gcc -fsyntax-only -std=c11 -w` must take each valid source that the first command takes, and mustn't call another a syntax error. Each
difference is printed, and --keep writes its source into a folder. The last lines count the answers.

With --batch the other command is started once: it reads names of sources, a line each, and answers each by a line, the status, a
space and what the first line on standard error would be. Needs Python 3.8 and no package.
"""
import argparse
import collections
import os
import random
import re
import shlex
import subprocess
import sys
import tempfile

from sources import DECLARED, source

TOKEN = re.compile(r"/\*.*?\*/|//[^\n]*|\w+|'(?:\\.|[^'])*'|\"(?:\\.|[^\"])*\"|\s+|<<=|>>=|[-+<>=!&|*/%^]=|<<|>>|&&|\|\||\+\+|--|.", re.S)
OTHERS = """( ) [ ] { } ; , : = + - * & ! ++ == if else while do for break continue return int void char long unsigned const static
extern sizeof main a b get f1 f2 f3 l1 0 1 09 1x 0x '' 'ab' "open /* */ // # @ goto cw_x CW_ cw{* \\ $""".split()
STATEMENTS = """
break; | continue; | main(); | a=main(); | f1(); | f1(0); | f1(0,0); | a=f2(); | f2(0,a); | a=b=f1(0); | f1(get(0,0)); | get(0,put()); | put()+get(); | f3; | &f1;
f2:; | l1:; | l2:; | if(f1())a; | return f2(0); | int f1; | int x=f1(); | for(f1();;); | for(int f2=0;;)break; | sizeof f1(); | cw_x=1; | CW_y:; | cw(); | int cw_z;
a=(f1()); | *p=f1(); | f1()[0]=1; | while(0)f1(); | do break; while(1); | -f1(); | c[f1()]; | f1(f2); | {int main;} | goto l1; | a?b:c; | a,b; | long long q;
l249:; | l248:;
""".replace("\n", " | ").strip(" |").split(" | ")
STATEMENTS += ["\n#include <a.h>\n", "\n #define x\n"] + [before * deep + "1" + behind * deep + ";" for before, behind in ("()", ("!", ""), ("a=", "")) for deep in (62, 64)]
STATEMENTS += ["{" * deep + ";" + "}" * deep for deep in (58, 60, 64)]
PARTS = """
int f1(void){return 0;} | void main(){} | int main(int x){return x;} | int f2; | int f3[1]; | int f1(int,int); | int f1(int main); | int f2(int f1); | int cw_g; | int f9(int x,int f1){}
""".strip().split(" | ")


def misplaced(one, text):
    """The source with a statement or a part of a file put in, which may break a rule of scope."""
    if one.random() < 0.2:
        return one.choice((f"{one.choice(PARTS)}\n{text}", f"{text}\n{one.choice(PARTS)}"))
    ends = [found.end() for found in re.finditer(r"[;{}](?=[^}]*[;}])", text)]
    at = one.choice(ends)
    return text[:at] + one.choice(STATEMENTS) + text[at:]


def spoilt(one, text):
    """The source with one to three tokens left out, put in, replaced, told twice or swapped."""
    tokens = TOKEN.findall(text)
    for _ in range(one.choice((1, 1, 2, 3))):
        at, other = one.randrange(len(tokens)), one.randrange(len(tokens))
        new = one.choice(OTHERS) if one.random() < 0.6 else tokens[other]
        kind = one.randrange(5)
        if kind == 0:
            tokens[at] = ""
        elif kind == 1:
            tokens.insert(at, new)
        elif kind == 2:
            tokens[at] = new
        elif kind == 3:
            tokens[at] *= 2
        else:
            tokens[at], tokens[other] = tokens[other], tokens[at]
    return "".join(tokens)


def run(words):
    """The status and the first line on standard error."""
    ran = subprocess.run(words, stdout=subprocess.DEVNULL, stderr=subprocess.PIPE)
    return ran.returncode, ran.stderr.decode(errors="replace").split("\n")[0]


class Batch:
    """A command that is started once."""

    def __init__(self, words):
        self.process = subprocess.Popen(words, stdin=subprocess.PIPE, stdout=subprocess.PIPE, text=True)

    def __call__(self, name):
        self.process.stdin.write(name + "\n")
        self.process.stdin.flush()
        status, _, line = self.process.stdout.readline().rstrip("\n").partition(" ")
        return int(status), line


def takes(answer):
    return answer[0] in (0, 1, 4)


def agree(ours, theirs):
    return takes(theirs) if takes(ours) else ours == theirs


def gcc_agrees(name, valid, ours):
    if not takes(ours):
        return True
    ran = subprocess.run(["gcc", "-fsyntax-only", "-std=c11", "-w", name], stderr=subprocess.PIPE, text=True)
    return ran.returncode == 0 or not valid and "error: expected" not in ran.stderr


def main():
    parser = argparse.ArgumentParser(description=__doc__, formatter_class=argparse.RawDescriptionHelpFormatter)
    parser.add_argument("command")
    parser.add_argument("--against")
    parser.add_argument("--batch", action="store_true")
    parser.add_argument("--gcc", action="store_true")
    parser.add_argument("--count", type=int, default=2000)
    parser.add_argument("--seed", type=int, default=1)
    parser.add_argument("--keep")
    asked = parser.parse_args()
    one, ours_words = random.Random(asked.seed), shlex.split(asked.command)
    theirs_words = shlex.split(asked.against) if asked.against else None
    other = None if theirs_words is None else Batch(theirs_words) if asked.batch else lambda name: run(theirs_words + [name])
    kinds, agreed = collections.Counter(), 0
    with tempfile.TemporaryDirectory() as folder:
        name = os.path.join(folder, "source.c")
        for number in range(asked.count):
            valid = number % 2 == 0
            text = source(one, one.choice((len(DECLARED) + 100, 600, 2000)), one.randrange(4))
            text = text if valid else one.choice((spoilt, misplaced))(one, text)
            with open(name, "w") as file:
                file.write(text)
            ours = run(ours_words + [name])
            kinds["taken" if takes(ours) else re.sub(r"\d+:\d+: ", "", ours[1])] += 1
            theirs = other(name) if other else None
            faults = [f"the other: {theirs}"] if theirs and not agree(ours, theirs) else []
            faults += ["gcc"] if asked.gcc and not gcc_agrees(name, valid, ours) else []
            faults += ["a valid source is refused"] if valid and not takes(ours) else []
            agreed += not faults
            if faults:
                print(f"source {number} of seed {asked.seed}: {ours}; {'; '.join(faults)}", flush=True)
                if asked.keep:
                    os.makedirs(asked.keep, exist_ok=True)
                    with open(os.path.join(asked.keep, f"{asked.seed}-{number}.c"), "w") as file:
                        file.write(text)
    print(", ".join(f"{line}: {count}" for line, count in kinds.most_common()))
    print(f"{asked.count} sources, {agreed} agreed")
    sys.exit(agreed != asked.count)


if __name__ == "__main__":
    main()
