#!/usr/bin/env python3
"""Weaves small programs that leave processes behind, goes through worlds of these step by step, and compares what comes with what has to come.

    python3 examples/worlds.py [CAPWEAVE]

CAPWEAVE is the program; without it that of the environment's variable CAPWEAVE is taken, and else crates/capweave/out/capweave. It takes a few seconds. Needs Python 3.8 and no package.
"""
import os
import subprocess
import sys
import tempfile

from rows import LEAVES, LEFT, at, changed, detaching, policy

PLAIN = policy(version=2)
CALLED = "1 call f\n1 try 1 enter granted\n1 label a cap\n"
TWO = changed(LEAVES, "f(1);", "f(1);f(2);")
AGAIN = "int c;" + changed(LEAVES, "f(1);", "while(c)f(1);")
DEEP = "void f(int x){a:;if(x)f(x-1);}int main(void){f(1);b:;return 0;}"
STOPS = changed(LEFT, "detached", 'refusable = ["enter"]\non_refusal = "stop"\ndetached')
WITHIN = "void g(int x){if(!fork()){a:;}b:;}int main(void){g(1);c:;return 0;}"
SPLIT = policy(at("a", never="amb"), at("c", must="amb"), head='split = ["g"]\n', version=2)


def body(text):
    return "int c;int main(void){%s return 0;}" % text


def steps(text):
    """Steps in short: a process and its moves, one letter a move; a digit behind a letter says how often."""
    words = {"o": "on", "l": "left", "r": "right", "f": "fork", "g": "grant", "n": "refuse"}
    lines = []
    for part in text.split():
        process, moves = part.split(":")
        for move in moves:
            lines += [lines[-1]] * (int(move) - 1) if move.isdigit() else ["%s %s\n" % (process, words[move])]
    return "".join(lines)


# what is shown; how it is woven; the policy; the source; the steps; the output
WORLDS = [
    ("no steps", "procs", LEFT, LEAVES, "", "done 1\n"),
    ("no way left at a fork", "procs", LEFT, LEAVES, "0:ol", "bad step 1\n"),
    ("no way right at a fork", "procs", LEFT, LEAVES, "0:or", "bad step 1\n"),
    ("no way on at a fork", "procs", LEFT, LEAVES, "0:oo", "bad step 1\n"),
    ("no fork elsewhere", "procs", LEFT, LEAVES, "0:f", "bad step 0\n"),
    ("no such process", "procs", LEFT, LEAVES, "1:o", "bad step 0\n"),
    ("no such process yet", "procs", LEFT, LEAVES, "0:of 2:o", "0 fork 1\n0 label b amb\nbad step 2\n"),
    ("a process that has ended", "procs", LEFT, LEAVES, "0:ofo5", "0 fork 1\n0 label b amb\nbad step 6\n"),
    ("a child that stays in its loop", "procs", LEFT, LEAVES, "0:ofo4 1:oogo9", "0 fork 1\n0 label b amb\n" + CALLED + "1 return f\ndone 2\n"),
    ("two calls", "procs", LEFT, TWO, "0:off 2:o 1:oo 2:o 1:g 2:g",
     "0 fork 1\n0 fork 2\n0 label b amb\n2 call f\n1 call f\n1 try 1 enter granted\n1 label a cap\n2 try 1 enter granted\n2 label a cap\ndone 3\n"),
    ("a call in a loop", "procs", LEFT, AGAIN, "0:olflfr 2:o", "0 fork 1\n0 fork 2\n0 label b amb\n2 call f\ndone 3\n"),
    ("a process of a process", "procs", detaching(), DEEP, "0:of 1:oooolf 2:o 1:o", "0 fork 1\n0 label b amb\n1 call f\n1 label a amb\n1 fork 2\n2 call f\n1 return f\ndone 3\n"),
    ("a fork by hand", "weave", PLAIN, body("if(!fork()){a:;}else{b:;}"), "0:of", "0 fork 1\n0 label b amb\n1 label a amb\ndone 2\n"),
    ("a fork with blanks and parentheses", "weave", PLAIN, body("if(!/*c*/( fork ( ) )){a:;}else{b:;}"), "0:of", "0 fork 1\n0 label b amb\n1 label a amb\ndone 2\n"),
    ("a fork in a while", "weave", PLAIN, body("while(!fork()){a:;}b:;"), "0:of", "0 fork 1\n0 label b amb\n1 label a amb\ndone 2\n"),
    ("a fork behind a do", "weave", PLAIN, body("do{a:;}while(!fork());b:;"), "0:ooof", "0 label a amb\n0 fork 1\n0 label b amb\n1 label a amb\ndone 2\n"),
    ("a fork in a for", "weave", PLAIN, body("for(;!fork();){a:;}b:;"), "0:of", "0 fork 1\n0 label b amb\n1 label a amb\ndone 2\n"),
    ("a call with an argument is no fork", "weave", PLAIN, body("if(!fork(1)){a:;}else{b:;}"), "0:ol", "0 label a amb\ndone 1\n"),
    ("nor is it forked", "weave", PLAIN, body("if(!fork(1)){a:;}else{b:;}"), "0:of", "bad step 1\n"),
    ("a fork turned round twice is none", "weave", PLAIN, body("if(!!fork()){a:;}else{b:;}"), "0:ol", "0 label a amb\ndone 1\n"),
    ("a fork that is compared is none", "weave", PLAIN, body("if(fork()==0){a:;}else{b:;}"), "0:or", "0 label b amb\ndone 1\n"),
    ("a fork with more is none", "weave", PLAIN, body("if(!fork()&&c){a:;}else{b:;}"), "0:of", "bad step 1\n"),
    ("a fork alone is one process", "weave", PLAIN, body("fork();a:;"), "0:oo", "0 label a amb\ndone 1\n"),
    ("a stop ends its process alone", "procs", STOPS, LEAVES, "0:of 1:oon 0:o", "0 fork 1\n0 label b amb\n1 call f\n1 try 1 enter refused\n1 stop 1\ndone 2\n"),
    ("a process that was stopped", "procs", STOPS, LEAVES, "0:of 1:oono", "0 fork 1\n0 label b amb\n1 call f\n1 try 1 enter refused\n1 stop 1\nbad step 5\n"),
    ("a fork within a call of its own", "weave", SPLIT, WITHIN, "0:ogoof", "0 try 4 split granted\n0 call g split\n0 fork 1\n0 label b amb\ndone 2\n"),
]

# the file of steps; the line on standard error, or none where the steps are read
FAULTS = [
    ("\n", 1), ("0 on", 1), ("0 on\n\n", 2), (" 0 on\n", 1), ("0  on\n", 1), ("0 on \n", 1), ("00 on\n", 1), ("-0 on\n", 1), ("0\ton\n", 1), ("0 on\r\n", 1), ("0 skip\n", 1),
    ("0 stop\n", 1), ("0 try\n", 1), ("0 Fork\n", 1), ("0\n", 1), ("on\n", 1), ("0 on\n0 fork\n0", 3), ("4294967296 on\n", 1), ("99999999999999999999 on\n", 1), ("+1 on\n", 1), ("0 on on\n", 1),
]


def tell(program, folder, words, files):
    for file, text in files.items():
        with open(os.path.join(folder, file), "w", encoding="ascii", newline="") as opened:
            opened.write(text)
    return subprocess.run([program] + words.split(), cwd=folder, capture_output=True, text=True)


def main():
    program = os.path.abspath(sys.argv[1] if len(sys.argv) > 1 else os.environ.get("CAPWEAVE") or os.path.join(os.path.dirname(__file__), "../crates/capweave/out/capweave"))
    wrong = 0

    def compare(name, run, status, out, note):
        nonlocal wrong
        if (run.returncode, run.stdout, run.stderr) != (status, out, note):
            wrong += 1
            print("wrong: %s: %d %r %r" % (name, run.returncode, run.stdout[-300:], run.stderr))

    with tempfile.TemporaryDirectory() as folder:
        for name, how, rules, source, moves, out in WORLDS:
            woven = tell(program, folder, how + " p s", {"p": rules, "s": source})
            if woven.returncode:
                wrong += 1
                print("wrong: %s: %s gives %d %s" % (name, how, woven.returncode, woven.stderr))
                continue
            compare(name, tell(program, folder, "world p t steps", {"t": woven.stdout, "steps": steps(moves)}), 1 if "bad step" in out else 0, out, "")
        woven = tell(program, folder, "procs p s", {"p": LEFT, "s": LEAVES}).stdout
        for text, line in FAULTS:
            compare("steps %r" % text, tell(program, folder, "world p t steps", {"t": woven, "steps": text}), 9, "", "steps: line %d\n" % line)
        compare("the greatest number", tell(program, folder, "world p t steps", {"t": woven, "steps": "4294967295 on\n"}), 1, "bad step 0\n", "")
        compare("steps before a policy that doesn't fit", tell(program, folder, "world q t steps", {"q": detaching(at("z", never="amb")), "t": woven, "steps": "0 on"}), 9, "", "steps: line 1\n")
        compare("no label", tell(program, folder, "world q t steps", {"steps": "0 on\n"}), 4, "", "policy: no label z\n")
        compare("run goes either way at a fork", tell(program, folder, "run p t tape", {"tape": "on\nright\n"}), 1, "label b amb\ntape spent\n", "")
        compare("run knows no fork", tell(program, folder, "run p t tape", {"tape": "on\nfork\n"}), 9, "", "tape: line 2\n")
    print("%d worlds, %d wrong" % (len(WORLDS) + len(FAULTS) + 5, wrong))
    return 1 if wrong else 0


if __name__ == "__main__":
    sys.exit(main())
