#!/usr/bin/env python3
"""Gives the program a million bytes of every kind of nonsense in the place of each file of each command.

    python3 bench/nonsense.py crates/capweave/out/capweave [--against "COMMAND"] [--stack 8192,512] [--bytes 1000000] [--only WORD] [--seconds 120] [--seed 1]

A kind is a few bytes again and again, or random bytes, tokens or lines, to the limit of the file, by itself and behind good beginnings of such a file, and by itself
to a million bytes, or as many as --bytes says. Each run has to end within so many seconds of processor time, by no signal, with a status of docs/COMMANDS.md, one line on
the note exactly where it has to have one, and nothing on the output but with status 0 or 1; with each of the sizes of stack in KiB it has to say the same, and with --against the
other command has to say it too (with the stack there is). What doesn't is told and left in a folder, and the exit status is then 1. Needs Linux, Python 3.8 and no package.
"""
import argparse
import collections
import os
import random
import shlex
import shutil
import sys
import tempfile

from running import prepared, ran, written

POLICY = 'format = 1\nrefusable = ["enter"]\n[[at]]\nlabel = "a"\nnever = ["amb"]\n'
PLAIN = POLICY.replace('refusable = ["enter"]\n', "")
SOURCE = "int main(void){a:;return 0;}"
STRATEGY = "capweave strategy 1\nstates 4\n0 5 0 0x0 bad\n1 4 0 0x0 refuse 0\n2 3 0 0x0 both 0 1\n3 2 0 0x0 on 2\n4 1 0 0x0 refuse 3\n5 0 0 0x0 both 3 4\nend\n"
TABLE = '/*cw{*/\n#include "capweave.h"\n#define CW_LIMITS(X)\nCW_TABLE(1,4,0)\nCW_MEM(0,0,0xf)\nCW_MEM(1,1,0xf)\nCW_MEM(2,3,0xf)\n'
LIVE = "".join("CW_LIVE(%d,%d)\n" % pair for pair in ((0, 0), (2, 0), (3, 0), (4, 0), (5, 1), (6, 2), (7, 2), (8, 2)))
WOVEN = TABLE + LIVE + "CW_TRY(1,0,0,1,CW_NONE)\nCW_AT(1,1,2)\nCW_DONE\n/*}cw*/int main(void){/*cw{*/CW_ENTRY(0);/*}cw*/a:/*cw{*/CW_LABEL(1)/*}cw*/;return 0;}"

ANSWERS = "capweave answers 1\nname argc 1\nname argv -2\ntry grant\ntry refuse\ncall 7\ncall -9\nend\n"
STEPS = "0 on\n0 grant\n0 on\n0 on\n"
AUDIT = "capweave audit 1\nstates 4\nviolates 1\non\nin 0 0 0\nat 2 0 0\nend\n"
FILES = {"policy": POLICY, "source": SOURCE, "strategy": STRATEGY, "woven": WOVEN, "tape": "on grant on on on on", "answers": ANSWERS, "steps": STEPS, "audit": AUDIT}
OF_WOVEN = ("check", "run", "values", "world")
COMMANDS = {
    "weave": ("policy", "source"),
    "graph": ("source",),
    "check": ("policy", "woven"),
    "refute": ("policy", "source", "strategy"),
    "run": ("policy", "woven", "tape"),
    "play": ("policy", "source", "strategy", "tape"),
    "values": ("policy", "woven", "answers"),
    "procs": ("policy", "source"),
    "world": ("policy", "woven", "steps"),
    "audit": ("policy", "source"),
    "reaudit": ("policy", "source", "audit"),
}
LONGEST = {"policy": 65_536, "source": 262_144}
BEGINNINGS = {
    "policy": ("", "format = 1\n", 'format = 1\n[[rule]]\nname = "r"\nbad = "', "format = 1\nsplit = ["),
    "source": ("", "int main(void){", "int main(void){return ", "int a={"),
    "strategy": ("", "capweave strategy 1\nstates 4\n", STRATEGY[: STRATEGY.index("end")], STRATEGY[:-5] + " "),
    "woven": ("", "/*cw{*/\n", TABLE, WOVEN[: WOVEN.index("return")], WOVEN),
    "tape": ("", "on grant "),
    "answers": ("", "capweave answers 1\n", ANSWERS[: ANSWERS.index("try")], ANSWERS[: ANSWERS.index("end")], ANSWERS),
    "steps": ("", "0 on\n", STEPS),
    "audit": ("", "capweave audit 1\nstates 4\n", AUDIT[: AUDIT.index("in 0")], AUDIT[: AUDIT.index("end")], AUDIT),
}
PIECES = ["\0", "\x7f", "\x1b", " ", "\n", "\t", "\r\n", "\v", "a", "A_", "0", "9", "0x", "1e9", "1.", "0-1+", "#", "#include\n", "#define ", '"', "'", "\\", "/", "*", "/*", "*/", "//", "/* */"]
PIECES += ["(", ")", "[", "]", "{", "}", "()", "[]", "{}", ";", ",", ":", "=", "-", "- ", "!", "~", "&", "|", "+", "*a", "<", "?", ".", "@", "a:", "a=", "a=1\n", "a,", "a ", "a.", "a|", "a\n", "(a", "(a)*"]
PIECES += ["if(c)", "if(c);else ", "else ", "while(c)", "do ", "for(;;)", "for(", "return ", "break;", "continue;", "goto ", "sizeof ", "(int)", "x=", "x+", "x?", "f(", "f();", "a[", "a[0]", "++", "x++;"]
PIECES += ["{int x;", "int a;", "int*", "int f(void);", "int f(int x,", "void f(void){}", "static ", "const ", "unsigned ", "main", "main();", "close(0);", "cw_", "'a'", '"a"', '"""', "'''", '"a",']
PIECES += ["[a]\n", "[[a]]\n", "[[rule]]\n", "[[at]]\n", "[[limit]]\nkeep=[]\n", "a={", "a=[", "a.b=", "a=1979-05-27T07:32:00Z\n", "\\u0041", "\\x41", "inf", "true,", "[!amb]", "0:CAP_READ,", "format = 1\n"]
PIECES += ["0 0 0 0x0 bad\n", "0 0 0 0x", "0 0 0 0x0 into 0 0=0 ", " 0=0", "0x0f", "CW_LIVE(0,0)\n", "CW_MEM(0,0,0xf)\n", "CW_MEM(0,0,0x", "CW_DONE\n", "CW_NONE", "/*cw{*/", "/*}cw*/", "/*cw{*/\n", "/*cw{*/CW_ENTRY(0);/*}cw*/", "cw{*", "*}cw"]
PIECES += ["0 on\n", "0 fork\n", "0 0\n", "name a 0\n", "name a -1\n", "try grant\n", "call 1\n", "call -9223372036854775808\n", "meets\n", "violates 1\n", "in 0 0 0\n", "at 2 0 0\n", "fork();", "_exit(0);"]
PIECES += ["on ", "on\n", "grant ", "refuse ", "left right ", "skip ", "try ", "on\0", "capweave strategy 1\n", "end\n"]
RAW = {"high": b"\xff", "tail": b"\x80", "two": "\u00e9".encode(), "four": "\U0001f600".encode(), "mark": b"\xef\xbb\xbf", "surrogate": b"\xed\xa0\x80", "long": b"\xc0\x80"}


def kinds(chance, size):
    """Names and bytes of so many."""
    for piece in PIECES:
        yield repr(piece), (piece.encode() * (size // len(piece) + 1))[:size]
    for name, piece in RAW.items():
        yield name, (piece * (size // len(piece) + 1))[:size]
    yield "random bytes", chance.getrandbits(8 * size).to_bytes(size, "little")
    yield "random text", bytes(chance.choices(range(32, 127), k=size))
    for blank in ("", " ", "\n"):
        yield "random pieces" + repr(blank), blank.join(chance.choices(PIECES, k=size // 2)).encode()[:size]


def known(program, folder):
    """The commands that a program takes."""
    return {name: roles for name, roles in COMMANDS.items() if not ran(program + [name], folder).note.startswith(b"usage: capweave COMMAND")}


def is_of_form(got):
    """Whether status, output and note fit each other."""
    if got.status in (0, 1):
        return bool(got.out) and not got.note
    return got.status in range(2, 10) and not got.out and got.note.count(b"\n") == 1 and got.note.endswith(b"\n")


def main():
    read = argparse.ArgumentParser(description=__doc__, formatter_class=argparse.RawDescriptionHelpFormatter)
    read.add_argument("program")
    read.add_argument("--against")
    read.add_argument("--stack", default="8192,512")
    read.add_argument("--bytes", type=int, default=1_000_000)
    read.add_argument("--only", default="")
    read.add_argument("--seconds", type=float, default=120)
    read.add_argument("--seed", type=int, default=1)
    asked = read.parse_args()
    prepared()
    program, other = shlex.split(asked.program), shlex.split(asked.against) if asked.against else None
    stacks = [int(size) for size in asked.stack.split(",")]
    folder = tempfile.mkdtemp(prefix="nonsense-")
    counts, wrong, slowest, largest = collections.Counter(), 0, (0, ""), (0, "")
    for command, roles in known(program, folder).items():
        written(folder, {role: PLAIN if role == "policy" and command in OF_WOVEN else FILES[role] for role in roles})
        for role in roles:
            if asked.only not in command + " " + role:
                continue
            good = PLAIN if role == "policy" and command in OF_WOVEN else FILES[role]
            for beginning in BEGINNINGS[role]:
                most = min(asked.bytes, LONGEST.get(role, asked.bytes))
                for size in {most, most if beginning else asked.bytes}:
                    for name, text in kinds(random.Random(asked.seed), size - len(beginning)):
                        written(folder, {role: beginning.encode() + text})
                        words = [command] + list(roles)
                        answers = [ran(program + words, folder, stack, asked.seconds) for stack in stacks]
                        wanted = ran(other + words, folder, 0, asked.seconds)[:3] if other else answers[0][:3]
                        told = "%s, %s: %s behind %r, %d bytes" % (command, role, name, beginning[-20:], size)
                        for stack, got in zip(stacks, answers):
                            slowest, largest = max(slowest, (got.seconds, told)), max(largest, (got.kilobytes, told))
                            counts[(command, role, got.status)] += 1
                            if not is_of_form(got) or got[:3] != wanted:
                                wrong += 1
                                kept = shutil.copytree(folder, "%s-%d" % (folder, wrong))
                                print("WRONG", told, "stack", stack, "status", got.status, (got.note or got.out)[:80], "wanted", wanted[0], (wanted[2] or wanted[1])[:80], "in", kept, flush=True)
            written(folder, {role: good})
            print(command, role, ", ".join("status %s: %d" % (key[2], count) for key, count in sorted(counts.items(), key=str) if key[:2] == (command, role)), flush=True)
    print(sum(counts.values()), "runs,", wrong or "none", "wrong; the slowest %.2f s (%s); the largest %d KiB (%s)" % (slowest + largest))
    return 1 if wrong else 0


if __name__ == "__main__":
    sys.exit(main())
