#!/usr/bin/env python3
"""Runs a table of words and small files on capweave-tell, and compares statuses, messages and files with what they have to be.

    python3 companion/rows.py [CAPWEAVE] [--only PART] [--show]

CAPWEAVE is the program that the companion calls; without it the one of the environment, or crates/capweave/out/capweave. --only takes the rows whose name
has PART in it; --show prints what each row tells. The last line is `N passed, M failed`, and the status is 1 where a row failed. It takes some ten
seconds. Needs Python 3.8 and no package; the rows of the Makefile, of `install.sh` and of compiled tools are left out, and told so, where make or a C compiler
isn't there.

A row has the words, the files of its folder, the status, and what is told: the lines of messages without the source lines and carets under them. A line that
ends with ` ..` is the front of what is told.
"""
import importlib.machinery
import importlib.util
import io
import json
import os
import re
import shutil
import subprocess
import sys
import tempfile

HERE = os.path.dirname(os.path.abspath(__file__))
ROOT = os.path.dirname(HERE)
TELL = os.path.join(HERE, "capweave-tell")
EXAMPLES = os.path.join(ROOT, "examples")
sys.dont_write_bytecode = True
loader = importlib.machinery.SourceFileLoader("capweave_tell", TELL)
tell = importlib.util.module_from_spec(importlib.util.spec_from_loader("capweave_tell", loader))
loader.exec_module(tell)
UNDER = re.compile(r"^( *\d+ | {6})\|")          # a source line, or the carets under one


# -- texts of policies and sources

def at(label, **tests):
    return '[[at]]\nlabel = "%s"\n' % label + "".join("%s = [%s]\n" % (word, ", ".join('"%s"' % test for test in some.split(";"))) for word, some in tests.items())


def policy(*parts, head="", version="1"):
    return "format = %s\n" % version + head + "".join(parts)


def descriptor(name, *rights):
    return '[[descriptor]]\nname = "%s"\n' % name + ("rights = [%s]\n" % ", ".join('"%s"' % right for right in rights) if rights else "")


def limit(name, *rights):
    return '[[limit]]\ndescriptor = "%s"\nkeep = [%s]\n' % (name, ", ".join('"%s"' % right for right in rights))


def rule(bad, name="r"):
    return '[[rule]]\nname = "%s"\nbad = "%s"\n' % (name, bad)


def example(name):
    with open(os.path.join(EXAMPLES, name)) as file:
        return file.read()


ONE = "int main(void){a:;return 0;}"
TWO = "int main(void){a:;b:;return 0;}"
NEVER = policy(at("a", never="amb"))
BOTH = policy(at("a", never="amb"), at("b", must="amb"))
REFUSABLE = policy(at("a", never="amb"), head='refusable = ["enter"]\n')
OPENED = "int fd = -1;\nint main(void) {\n    fd = get();\na:\n    return 0;\n}\n"
CALLED = "int f(int x){a:;return x;}\nint main(void){int y;y=f(1);b:;return 0;}"
SPLIT = policy(at("a", never="amb"), at("b", must="amb"), head='split = ["f"]\n')
LINES, LINES_POLICY = example("lines.c"), example("lines.toml")
MUST_READ = policy(descriptor("in"), limit("in", "CAP_READ"), at("parse", must="in:CAP_READ", never="amb"))
PLAIN = "int main(void){return 0;}\n"
EMPTY = "format = 1\n"

ROWS = []


def row(name, words, files, status, told, **more):
    """`told` is what stands on standard error, or on standard output where `out` is true. `left` and `gone` are files that are there afterwards or aren't,
    and `whole` compares each line, carets and all."""
    ROWS.append((name, words, files, status, told, more))


def source(name, text, told, rules="", status=3):
    row("source: " + name, "weave p.toml s.c", {"p.toml": rules or EMPTY, "s.c": text}, status, told)


def refused(name, text, told, code=ONE, status=4):
    row("policy: " + name, "weave p.toml s.c", {"p.toml": text, "s.c": code}, status, told)


# -- the words

row("weave", "weave p.toml s.c -o w.c", {"p.toml": NEVER, "s.c": ONE}, 0, ["s.c:1:16: note: label a: enter; for p.toml:4 (never amb)"], left=["w.c"], gone=["w.c.strategy"])
row("weave: whole", "weave p.toml s.c -o w.c", {"p.toml": NEVER, "s.c": ONE}, 0,
    ["s.c:1:16: note: label a: enter; for p.toml:4 (never amb)", "    1 | int main(void){a:;return 0;}", "      |                ^~"], whole=True)
row("weave: quiet", "weave -q p.toml s.c -o w.c", {"p.toml": NEVER, "s.c": ONE}, 0, [], left=["w.c"])
row("weave: without -o", "weave -q p.toml s.c", {"p.toml": NEVER, "s.c": ONE}, 0, ["/*cw{*/", '#include "capweave.h"', "#define CW_LIMITS(X)", "CW_TABLE(1,4,0) .."], out=True, front=True)
row("weave: nothing to insert", "weave p.toml s.c -o w.c", {"p.toml": policy(at("a", must="amb")), "s.c": ONE}, 0, ["s.c: note: nothing is inserted: the source meets the policy as it is"])
row("weave: refuted", "weave p.toml s.c -o w.c", {"p.toml": BOTH, "s.c": TWO}, 1, [
    "p.toml:7:9: error: no placement of calls can meet this policy: 'a never amb' and 'b must amb' can't both be met",
    "p.toml:4:10: note: the rule 'a never amb'",
    "s.c:1:16: note: 1. try enter: granted",
    "s.c:1:16: note: 2. label a: in capability mode",
    "s.c:1:19: note: 3. label b: in capability mode; that violates 'b must amb'",
    "s.c:1:16: note: where 'enter' is skipped, 'a never amb' is violated on line 1",
    "p.toml:4:10: note: it can be woven without the test 'a never amb'",
    "p.toml:7:9: note: it can be woven without the test 'b must amb'",
    "capweave-tell: note: the strategy is in 'w.c.strategy'"], left=["w.c.strategy"], gone=["w.c"])
row("weave: an older text goes", "weave p.toml s.c -o w.c", {"p.toml": BOTH, "s.c": TWO, "w.c": "old"}, 1, [
    "p.toml:7:9: error: no placement of calls can meet this policy: 'a never amb' and 'b must amb' can't both be met", "p.toml:4:10: note: the rule 'a never amb' .."],
    front=True, left=["w.c.strategy"], gone=["w.c"])
row("weave: an older text goes with a fault", "weave p.toml s.c -o w.c", {"p.toml": policy(at("z", never="amb")), "s.c": ONE, "w.c": "old"}, 4, [
    "p.toml:3:9: error: no label 'z' in s.c; its labels are a", "capweave-tell: note: 'w.c' was older than this refusal, and is removed"], gone=["w.c"])
row("weave: an older strategy goes", "weave -q p.toml s.c -o w.c", {"p.toml": NEVER, "s.c": ONE, "w.c.strategy": "old", "w.c": "old"}, 0, [], left=["w.c"], gone=["w.c.strategy"])
row("weave: an older text stays where a file can't be read", "weave p.toml none.c -o w.c", {"p.toml": BOTH, "w.c": "old"}, 6, ["none.c: error: can't be read: No such file or directory"], left=["w.c"])
row("weave: into its source", "weave p.toml s.c -o s.c", {"p.toml": NEVER, "s.c": ONE}, 2, ["capweave-tell: error: 's.c' is read here, and can't be written too"], left=["s.c"])
row("weave: into a device", "weave -q p.toml s.c -o /dev/null", {"p.toml": NEVER, "s.c": ONE}, 0, [])
row("weave: no such folder", "weave p.toml s.c -o none/w.c", {"p.toml": NEVER, "s.c": ONE}, 7, ["capweave-tell: error: none/w.c can't be written: No such file or directory"])
row("explain", "explain lines.toml lines.c", {"lines.toml": LINES_POLICY, "lines.c": LINES}, 0, [
    "lines.c:43:1: note: label parse: limit in to CAP_READ, enter; for lines.toml:16 (never amb, never in:CAP_WRITE, never in:CAP_FTRUNCATE) .."], out=True, front=True)
row("explain: rules that want it together", "explain p.toml s.c", {"p.toml": policy(descriptor("0"), limit("0"), at("a", never="amb;0:CAP_READ"), at("b", must="amb;0:CAP_READ"),
    head='split = ["f"]\n'), "s.c": CALLED}, 0, [
    "s.c:1:14: note: label a: limit 0 (standard input) to nothing, enter; for p.toml:10 (never amb, never 0:CAP_READ)",
    "s.c:2:22: note: call of f: run f in a process of its own; for p.toml:10 (never amb), p.toml:13 (must amb)"], out=True, front=True)
row("explain: refuted", "explain p.toml lines.c", {"p.toml": MUST_READ, "lines.c": LINES}, 1, [
    "p.toml:9:9: error: no placement of calls can meet this policy: 'parse must in:CAP_READ' can't be met",
    "lines.c:31:5: note: 1. the condition doesn't hold",
    "lines.c:35:1: note: 2. label begin: ambient, in closed",
    "lines.c:36:5: note: 3. open of in: it fails",
    "lines.c:37:5: note: 4. the condition doesn't hold",
    "lines.c:42:5: note: 5. the loop goes round",
    "lines.c:43:1: note: 6. label parse: ambient, in closed; that violates 'parse must in:CAP_READ'",
    "lines.c:36:5: note: in the model an open may fail and every branch behind it may go either way, whatever is tested there; `never` asks for less than `must`",
    "p.toml:9:9: note: it can be woven without the test 'parse must in:CAP_READ'"], out=True)
row("explain: what may be refused", "explain p.toml s.c", {"p.toml": REFUSABLE, "s.c": ONE}, 1, [
    "p.toml:5:10: error: no placement of calls can meet this policy: 'a never amb' can't be met",
    "s.c:1:16: note: 1. try enter: refused, since the policy calls it refusable",
    "s.c:1:16: note: 2. label a: ambient; that violates 'a never amb'",
    "p.toml:2:13: note: what may be refused can't be relied on",
    "p.toml:5:10: note: it can be woven without the test 'a never amb'",
    "p.toml:2:14: note: it can be woven where 'enter' is not refusable",
    'p.toml:2:1: note: it can be woven with `on_refusal = "stop"`: a refusal then ends the program'], out=True)
row("explain: a process of its own would do", "explain p.toml s.c", {"p.toml": BOTH, "s.c": CALLED}, 1, [
    "p.toml:7:9: error: no placement of calls can meet this policy: 'a never amb' and 'b must amb' can't both be met",
    "p.toml:4:10: note: the rule 'a never amb'",
    "s.c:2:22: note: 1. call of f",
    "s.c:1:14: note: 2. try enter: granted",
    "s.c:1:14: note: 3. label a: in capability mode",
    "s.c:1:26: note: 4. f ends",
    "s.c:2:29: note: 5. label b: in capability mode; that violates 'b must amb'",
    "s.c:1:14: note: where 'enter' is skipped, 'a never amb' is violated on line 1",
    "p.toml:4:10: note: it can be woven without the test 'a never amb'",
    "p.toml:7:9: note: it can be woven without the test 'b must amb'",
    's.c:1:5: note: it can be woven with `split = ["f"]`: calls of f may then run in a process of their own'], out=True)
row("explain: a process that nobody waits for would do", "explain p.toml s.c", {"p.toml": BOTH, "s.c": "int n;\nvoid f(int x)\n{\na:\n    n = x;\n}\nint main(void)\n{\n    f(1);\nb:\n    return 0;\n}\n"}, 1, [
    "p.toml:7:9: error: no placement of calls can meet this policy: 'a never amb' and 'b must amb' can't both be met",
    "p.toml:4:10: note: the rule 'a never amb'",
    "s.c:9:5: note: 1. call of f",
    "s.c:4:1: note: 2. try enter: granted",
    "s.c:4:1: note: 3. label a: in capability mode",
    "s.c:6:1: note: 4. f ends",
    "s.c:10:1: note: 5. label b: in capability mode; that violates 'b must amb'",
    "s.c:4:1: note: where 'enter' is skipped, 'a never amb' is violated on line 4",
    "p.toml:4:10: note: it can be woven without the test 'a never amb'",
    "p.toml:7:9: note: it can be woven without the test 'b must amb'",
    "s.c:2:6: note: it can be woven by `procs` with `format = 2` and `detached = [\"f\"]`: nobody then waits for calls of f"], out=True)
row("explain: no limit that would do", "explain p.toml s.c", {"p.toml": policy(descriptor("0"), limit("0", "CAP_READ"), at("a", never="0:CAP_READ")), "s.c": ONE}, 1, [
    "p.toml:9:10: error: no placement of calls can meet this policy: 'a never 0:CAP_READ' can't be met",
    "s.c:1:16: note: 1. label a: ambient, 0 open with all rights; that violates 'a never 0:CAP_READ'",
    "p.toml:9:10: note: no [[limit]] of the policy takes CAP_READ from '0'",
    "p.toml:9:10: note: it can be woven without the test 'a never 0:CAP_READ'"], out=True)
row("explain: never opened", "explain p.toml s.c", {"p.toml": policy(descriptor("fd"), at("b", must="fd:CAP_READ")), "s.c": "int fd;int main(void){b:;return 0;}"}, 1, [
    "p.toml:6:9: error: no placement of calls can meet this policy: 'b must fd:CAP_READ' can't be met",
    "s.c:1:23: note: 1. label b: ambient, fd closed; that violates 'b must fd:CAP_READ'",
    "p.toml:6:9: note: 'fd' is closed at this label: no open of it comes before in this run",
    "p.toml:6:9: note: it can be woven without the test 'b must fd:CAP_READ'"], out=True)
row("explain: two at once", "explain p.toml s.c", {"p.toml": policy(at("a", must="amb"), rule("a", "first"), rule(". b", "second")), "s.c": TWO}, 1, [
    "p.toml:7:7: error: no placement of calls can meet this policy: 'first' can't be met",
    "s.c:1:16: note: 1. label a: ambient; that violates 'first'",
    "p.toml:10:7: note: it can be woven without 'first' and 'second' together"], out=True)
row("warn: nothing", "warn lines.toml lines.c", {"lines.toml": LINES_POLICY, "lines.c": LINES}, 0, [], out=True)
row("warn: a product", "warn p.toml s.c", {"p.toml": policy(descriptor("fd"), at("a", never="fd:CAP_READ"), limit("fd")),
    "s.c": "int fd = -1;\nint main(void) {\n    FILE *fd;\n    fd = get();\na:\n    return 0;\n}\n"}, 0, [
    "s.c:3:5: warning: 'FILE *fd' is read as a product: if 'FILE' is a type, the model doesn't see that 'fd' is declared here; it would hide the policy's descriptor 'fd'"], out=True)
row("warn: a declaration in brackets", "warn p.toml s.c", {"p.toml": policy(descriptor("fd"), at("a", never="fd:CAP_READ"), limit("fd")),
    "s.c": "int fd = -1;\nint main(void) {\n    number(fd);\n    fd = get();\na:\n    return 0;\n}\n"}, 0, [
    "s.c:3:5: warning: 'number' gets the descriptor's number: if 'number' is a type this declares 'fd' anew"], out=True)
row("warn: a split function's calls", "warn p.toml s.c", {"p.toml": SPLIT, "s.c": "void g(int x){count(x);}\n" + CALLED.replace("a:;", "a:;g(x);total();")}, 0, [
    "s.c:1:15: warning: 'f' may run in a process of its own, and what 'count' changes there (totals, buffers, errno) stays there",
    "s.c:2:22: warning: 'f' may run in a process of its own, and what 'total' changes there (totals, buffers, errno) stays there"], out=True)
row("warn: an open in capability mode", "warn p.toml s.c", {"p.toml": policy(descriptor("fd"), limit("fd", "CAP_READ"), at("a", never="amb;fd:CAP_WRITE")),
    "s.c": "int fd = -1;\nint main(void) {\n    while (more()) {\n        fd = open(next(), 0);\na:\n        close(fd);\n    }\n    return 0;\n}\n".replace("open(next(), 0)", "open(name, 0)")}, 0, [
    "s.c:4:14: warning: the open of 'fd' is reached in capability mode on some runs, where it fails (ECAPMODE); no placement keeps a label before it ambient (`must = [\"amb\"]`)"], out=True)
for opened in ("openat(d, name, 0)", "accept(d, 0, 0)", "socket(1, 1, 0)"):
    row("warn: %s in capability mode" % opened, "warn p.toml s.c", {"p.toml": policy(descriptor("fd"), at("a", never="amb;fd:CAP_WRITE"), limit("fd", "CAP_READ")),
        "s.c": "int fd = -1;\nint main(void) {\n    while (more()) {\n        fd = %s;\na:\n        close(fd);\n    }\n    return 0;\n}\n" % opened}, 0, [], out=True)
row("warn: an open below the working directory", "warn p.toml s.c", {"p.toml": policy(at("a", never="amb")), "s.c": "int main(void) {\na:\n    n = openat(AT_FDCWD, \"x\", 0);\n    return 0;\n}\n"}, 0, [
    "s.c:3:9: warning: 'openat' is reached in capability mode, where it fails (ECAPMODE); no placement keeps a label before it ambient (`must = [\"amb\"]`)"], out=True)
row("warn: an open behind all", "warn p.toml s.c", {"p.toml": policy(at("a", never="amb")), "s.c": "int main(void) {\na:\n    fopen(\"x\", \"r\");\n    return 0;\n}\n"}, 0, [
    "s.c:3:5: warning: 'fopen' is reached in capability mode, where it fails (ECAPMODE); no placement keeps a label before it ambient (`must = [\"amb\"]`)"], out=True)
row("warn: a label never reached", "warn p.toml s.c", {"p.toml": NEVER, "s.c": "int main(void){a:;return 0;b:;a2:;return 0;}"}, 0, [
    "s.c:1:28: warning: label b is never reached", "s.c:1:31: warning: label a2 is never reached"], out=True)
row("warn: rules that can't match", "warn p.toml s.c", {"p.toml": policy(descriptor("0", "CAP_READ"), at("a", never="amb;0:CAP_WRITE"), at("c", must="amb"), rule(".* b .* a", "back"), rule(
    "a[0:CAP_SEEK]", "seek"), limit("0")), "s.c": "int main(void){a:;b:;return 0;c:;return 0;}"}, 0, [
    "s.c:1:31: warning: label c is never reached, and rules speak of it",
    "p.toml:7:17: warning: 'a never 0:CAP_WRITE' can never be violated: no capabilities that can be held here break it",
    "p.toml:10:9: warning: 'c must amb' can never be violated: its label is never reached",
    "p.toml:13:7: warning: 'back' can never be violated: no path has labels in this order",
    "p.toml:16:7: warning: 'seek' can never be violated: no capabilities fit 'a[0:CAP_SEEK]'",
    "p.toml:19:8: warning: the limit of '0' to nothing is never tried"], out=True)
row("warn: a descriptor without a rule", "warn p.toml s.c", {"p.toml": NEVER + descriptor("0"), "s.c": ONE}, 0, ["p.toml:6:8: warning: no rule speaks of descriptor '0'"], out=True)
row("warn: a limit that a later one hides", "warn p.toml s.c", {"p.toml": policy(descriptor("0"), limit("0", "CAP_READ"), limit("0"), at("a", never="0:CAP_WRITE")), "s.c": ONE}, 0, [
    "p.toml:6:8: warning: the limit of '0' to CAP_READ is hidden by the stricter one that stands later (to nothing): of limits that would do the last is taken; list the strictest first",
    "p.toml:9:8: note: the other one"], out=True)
row("warn: a limit twice", "warn p.toml s.c", {"p.toml": policy(descriptor("0"), limit("0"), limit("0"), at("a", never="0:CAP_WRITE")), "s.c": ONE}, 0, [
    "p.toml:6:8: warning: limit[1] is limit[0] once more", "p.toml:9:8: note: the other one"], out=True)
row("warn: strict", "warn --strict p.toml s.c", {"p.toml": NEVER + descriptor("0"), "s.c": ONE}, 1, ["p.toml:6:8: warning: no rule speaks of descriptor '0'"], out=True)
row("warn: refuted", "warn p.toml s.c", {"p.toml": BOTH, "s.c": TWO}, 0, ["p.toml: note: this policy can't be met, so nothing is said of opens in capability mode; `explain` tells why"], out=True)
row("same", "same w.c s.c", {"w.c": ("weave", NEVER, ONE), "s.c": ONE}, 0, ["w.c: note: without its marks it is s.c"], out=True)
row("same: changed", "same w.c s.c", {"w.c": ("weave", NEVER, ONE), "s.c": ONE.replace("0", "1")}, 1, [
    "w.c:19:84: error: the woven text isn't this source from here on", "s.c:1:26: note: the source has this here"], out=True)
row("same: shorter", "same w.c s.c", {"w.c": ("weave", NEVER, ONE), "s.c": ONE + "\n"}, 1, ["w.c:19:87: error: the woven text ends before its source does", "s.c:1:29: note: the source has this here"], out=True)
row("same: longer", "same w.c s.c", {"w.c": ("weave", NEVER, ONE + "\n"), "s.c": ONE}, 1, ["w.c:19:87: error: the woven text goes on where its source ends", "s.c:1:29: note: the source has this here"], out=True)
row("same: no woven text", "same s.c s.c", {"s.c": ONE}, 9, ["s.c:1:1: error: a woven text begins with /*cw{*/ and a line feed"])
row("same: an open part", "same w.c s.c", {"w.c": "/*cw{*/\n/*}cw*/int x;/*cw{*/", "s.c": "int x;"}, 9, ["w.c:2:14: error: this insertion isn't closed by /*}cw*/"])
row("same: a part of another hand", "same w.c s.c", {"w.c": "/*cw{*/\n/*}cw*/int x;/*cw{*/int y;/*}cw*/", "s.c": "int x;"}, 9, ["w.c:2:14: error: this is no mark that capweave writes"])

# -- audits

OPENS = "int fd = -1;\nint f(int x)\n{\nb:\n    return x;\n}\nint main(void)\n{\n    if (c)\n        return 1;\n    fd = get();\n    f(1);\na:\n    close(fd);\n    return 0;\n}\n"
ALWAYS = policy(at("a", must="amb"))
DOUBLED = "void f0(void){;}\n" + "".join("void f%d(void){f%d();f%d();}\n" % (number, number - 1, number - 1) for number in range(1, 16)) + "int main(void){f15();a:;return 0;}\n"
ONE_AUDIT, ALWAYS_AUDIT = ("audit", NEVER, ONE), ("audit", ALWAYS, ONE)
row("audit", "audit p.toml s.c", {"p.toml": NEVER, "s.c": ONE}, 1, [
    "s.c:1:16: error: the label a is passed with amb held: violates p.toml:4 (never amb); 1 move from the start", "s.c:1:16: note: 1. label a: ambient"], out=True)
row("audit: whole", "audit p.toml s.c", {"p.toml": NEVER, "s.c": ONE}, 1, [
    "s.c:1:16: error: the label a is passed with amb held: violates p.toml:4 (never amb); 1 move from the start", "    1 | int main(void){a:;return 0;}", "      |                ^~",
    "s.c:1:16: note: 1. label a: ambient", "    1 | int main(void){a:;return 0;}", "      |                ^~"], out=True, whole=True)
row("audit: it meets", "audit p.toml s.c", {"p.toml": ALWAYS, "s.c": ONE}, 0, ["s.c: note: it meets the policy as it is: no run violates a rule"], out=True)
row("audit: into a file", "audit p.toml s.c -o a", {"p.toml": NEVER, "s.c": ONE}, 1, ["s.c:1:16: error: the label a is passed with amb held .."], out=True, front=True, left=["a"])
row("audit: into its policy", "audit p.toml s.c -o p.toml", {"p.toml": NEVER, "s.c": ONE}, 2, ["capweave-tell: error: 'p.toml' is read here, and can't be written too"])
row("audit: moves in lines of the source", "audit p.toml s.c", {"p.toml": policy(descriptor("fd"), limit("fd"), at("a", never="fd:CAP_READ"), at("b", must="amb")), "s.c": OPENS}, 1, [
    "s.c:13:1: error: the label a is passed with fd:CAP_READ held: violates p.toml:9 (never fd:CAP_READ); 8 moves from the start",
    "s.c:9:5: note: 1. the condition doesn't hold",
    "s.c:11:5: note: 2. open of fd: it succeeds",
    "s.c:12:5: note: 3. call of f",
    "s.c:4:1: note: 4. label b: ambient, fd open with all rights",
    "s.c:6:1: note: 5. f ends",
    "s.c:13:1: note: 6. label a: ambient, fd open with all rights"], out=True)
row("audit: what is held and what isn't", "audit p.toml s.c", {"p.toml": policy(descriptor("fd"), at("a", never="amb;!fd:CAP_READ", must="fd:CAP_WRITE")), "s.c": "int fd = -1;" + ONE}, 1, [
    "s.c:1:28: error: the label a is passed with amb held and without fd:CAP_WRITE and fd:CAP_READ: violates p.toml:7 (must fd:CAP_WRITE), p.toml:6 (never amb, never !fd:CAP_READ); 1 move from the start",
    "s.c:1:28: note: 1. label a: ambient, fd closed"], out=True)
row("audit: a rule", "audit p.toml s.c", {"p.toml": policy(rule("a b", "both")), "s.c": TWO}, 1, [
    "s.c:1:19: error: the label b is passed: violates p.toml:4 (both); 3 moves from the start", "s.c:1:16: note: 1. label a: ambient", "s.c:1:19: note: 2. label b: ambient"], out=True)
row("audit: a long way", "audit p.toml s.c", {"p.toml": NEVER, "s.c": "int main(void){" + "if(c){return 0;}" * 61 + "a:;return 0;}"}, 1, [
    "s.c:1:992: error: the label a is passed with amb held: violates p.toml:4 (never amb); 62 moves from the start", "s.c:1:992: note: 62. label a: ambient"], out=True)
row("audit: detached functions are called", "audit p.toml s.c", {"p.toml": policy(at("a", never="amb"), head='detached = ["f"]\n', version="2"), "s.c": CALLED.replace("y=f", "f")}, 1, [
    "s.c:1:14: error: the label a is passed with amb held: violates p.toml:5 (never amb); 4 moves from the start", "s.c:2:22: note: 1. call of f", "s.c:1:14: note: 2. label a: ambient"], out=True)
row("audit: faults", "audit p.toml s.c", {"p.toml": policy(at("z", never="amb"), head='detached = ["q"]\n', version="2"), "s.c": ONE}, 4, ["p.toml:4:9: error: no label 'z' in s.c; its labels are a"])
row("audit: limit: audit moves", "audit p.toml s.c", {"p.toml": NEVER, "s.c": DOUBLED}, 5, ["s.c:1:1: error: over the limit of audit moves: the nearest violation is more than 65,536 moves away"])
row("reaudit", "reaudit p.toml s.c a", {"p.toml": NEVER, "s.c": ONE, "a": ONE_AUDIT}, 0, [
    "a: note: it is right: no run of s.c violates the policy in fewer moves than these",
    "s.c:1:16: note: the label a is passed with amb held: violates p.toml:4 (never amb); 1 move from the start", "s.c:1:16: note: 1. label a: ambient"], out=True)
row("reaudit: it meets", "reaudit p.toml s.c a", {"p.toml": ALWAYS, "s.c": ONE, "a": ALWAYS_AUDIT}, 0, ["a: note: it is right: no run of s.c violates the policy"], out=True)
for name, before, after, told in (
        ("1", "at 8 2 4\n", "at 8 4 4\n", ["a:9:1: error: condition 1: numbers are out of range or out of order, or the states aren't those of this policy and source", "s.c:1:28: note: the row stands for this: end of main, ambient"]),
        ("1: the states", "states 4", "states 5", ["a:5:1: error: condition 1: numbers are out of range or out of order, or the states aren't those of this policy and source", "s.c:1:5: note: the row stands for this: entry of main, ambient"]),
        ("2", "at 2 0 0\n", "at 2 0 1\n", ["a:5:1: error: condition 2: the function's own row is missing: its entry with the state of the group and 0, and for main a REACH of 0 .."]),
        ("4", "at 8 2 4\n", "", ["a:8:1: error: condition 4: a move from here leads to a pair that has no row, or one whose number is more than one higher", "s.c:1:19: note: the row stands for this: return, ambient"])):
    row("reaudit: condition " + name, "reaudit p.toml s.c a", {"p.toml": ALWAYS, "s.c": ONE, "a": ("audit", ALWAYS, ONE, before, after)}, 1, told, out=True, front=True)
row("reaudit: condition 3", "reaudit p.toml s.c a", {"p.toml": NEVER, "s.c": ONE, "a": "capweave audit 1\nstates 4\nmeets\nin 0 0 0\nat 2 0 0\nat 5 0 1\nend\n"}, 1, [
    "a:6:1: error: condition 3: the label there violates the policy", "s.c:1:16: note: the row stands for this: label a, ambient"], out=True)
row("reaudit: condition 5", "reaudit p.toml s.c a", {"p.toml": ALWAYS, "s.c": CALLED.replace("y=f", "f"), "a": ("audit", ALWAYS, CALLED.replace("y=f", "f"), "in 0 0 3", "in 0 0 9")}, 1, [
    "a:13:1: error: condition 5: the called function has no group here, or one that is farther; or the pair after its return has no row, or one that is farther",
    "s.c:2:22: note: the row stands for this: call of f, ambient"], out=True)
row("reaudit: condition 6", "reaudit p.toml s.c a", {"p.toml": NEVER, "s.c": ONE, "a": ("audit", NEVER, ONE, "1\non\n", "1\nleft\n")}, 1, ["a:3:1: error: condition 6: these moves don't come from the start to a violation"], out=True)
row("reaudit: line", "reaudit p.toml s.c a", {"p.toml": NEVER, "s.c": ONE, "a": ("audit", NEVER, ONE, "in 0 0 0", "in 0 0")}, 9, ["a:5:1: error: this line isn't of the audit's form"])
row("reaudit: a source's fault", "reaudit p.toml s.c a", {"p.toml": NEVER, "s.c": "int main(void){break;a:;return 0;}", "a": ONE_AUDIT}, 3, ["s.c:1:16: error: `break` stands in no loop"])
row("reaudit: file bytes", "reaudit p.toml s.c a", {"p.toml": NEVER, "s.c": ONE, "a": " " * 16777217}, 5, ["a:1:1: error: over the limit of file bytes: the file is too long"])

# -- processes that nobody waits for

LEAVES = "#include <unistd.h>\nvoid f(int x)\n{\na:\n    work(x);\n}\nint main(void)\n{\n    f(1); b: ;\n    return 0;\n}\n"
LEFT = policy(at("a", never="amb"), at("b", must="amb"), head='detached = ["f"]\n', version="2")
TORN = policy(at("a", never="amb"), at("b", must="amb"), rule(".* a[!amb]", "never-tried"), head='detached = ["f"]\n', version="2")
PROCS = ("procs", LEFT, LEAVES)
LEFT_TOLD = ["s.c:4:1: note: label a: enter; for p.toml:5 (never amb)", "s.c:9:5: note: call of f: in a process of its own that nobody waits for"]


def left_by(name, text, told, code=LEAVES, status=4, word="procs"):
    row("procs: " + name, word + " p.toml s.c", {"p.toml": text, "s.c": code}, status, told, out=word == "explain")


row("procs", "procs p.toml s.c -o w.c", {"p.toml": LEFT, "s.c": LEAVES}, 0, LEFT_TOLD, left=["w.c"], gone=["w.c.strategy"])
row("procs: without -o", "procs -q p.toml s.c", {"p.toml": LEFT, "s.c": LEAVES}, 0, ["/*cw{*/", '#include "capweave.h"', "#define CW_LIMITS(X)", "CW_TABLE(2,4,0) .."], out=True, front=True)
row("procs: nothing to leave", "procs p.toml s.c -o w.c", {"p.toml": NEVER, "s.c": ONE}, 0, ["s.c:1:16: note: label a: enter; for p.toml:4 (never amb)"], left=["w.c"])
row("procs: refuted", "procs p.toml s.c -o w.c", {"p.toml": TORN, "s.c": LEAVES, "w.c": "old"}, 1, [
    "p.toml:5:10: error: no placement of calls can meet this policy: 'a never amb' and 'never-tried' can't both be met",
    "p.toml:11:7: note: the rule 'never-tried'",
    "s.c:9:5: note: 1. fork: on in the new process",
    "s.c:9:5: note: 2. call of f",
    "s.c:4:1: note: 3. label a: ambient; that violates 'a never amb'",
    "p.toml:5:10: note: it can be woven without the test 'a never amb'",
    "p.toml:11:7: note: it can be woven without the rule 'never-tried'",
    "capweave-tell: note: the strategy is in 'w.c.strategy'; 'w.c' was older, and is removed"], left=["w.c.strategy"], gone=["w.c"])
row("procs: explain", "explain p.toml s.c", {"p.toml": LEFT, "s.c": LEAVES}, 0, LEFT_TOLD + [
    "s.c:4:1: note: without what is inserted, the shortest run that violates the policy: the label a is passed with amb held: violates p.toml:5 (never amb); 4 moves from the start",
    "s.c:9:5: note: 1. fork: on in the new process", "s.c:9:5: note: 2. call of f", "s.c:4:1: note: 3. label a: ambient"], out=True)
row("procs: warn", "warn p.toml s.c", {"p.toml": LEFT, "s.c": LEAVES}, 0, [], out=True)
row("procs: warn: what a form needs", "warn p.toml s.c", {"p.toml": LEFT, "s.c": LEAVES.replace("#include <unistd.h>", "").replace("work(x)", 'printf("%d", x)')}, 0, [
    "s.c:5:5: warning: 'f' runs in a process that ends by `_exit`: what 'printf' leaves in a buffer is lost, unless `fflush` follows",
    "s.c:7:5: warning: the form calls `fork` and `_exit`, and nothing declares them: write `#include <unistd.h>`"], out=True)
row("procs: warn: it flushes", "warn p.toml s.c", {"p.toml": LEFT, "s.c": LEAVES.replace("work(x)", 'printf("%d", x);fflush(stdout)')}, 0, [], out=True)
row("procs: warn: variables of the file", "warn p.toml s.c", {"p.toml": LEFT, "s.c": LEAVES.replace("void f(int x)\n{", "int n, some[4], k = 1, alone;\nvoid g(int n)\n{\n    n = 1; some[n]++;\n}\nvoid f(int x)\n{\n    int k;").replace(
    "work(x)", "k = x; ++n; n += k; alone = n; g(some[1] == n)").replace("return 0", "return n + some[0]")}, 0, [
    "s.c:5:12: warning: 'f' runs in a process of its own: that 'some' changes stays there",
    "s.c:11:14: warning: 'f' runs in a process of its own: that 'n' changes stays there"], out=True)
row("procs: an open behind the call", "warn p.toml s.c", {"p.toml": policy(descriptor("fd"), at("b", never="amb"), head='detached = ["f"]\n', version="2"),
    "s.c": "#include <unistd.h>\nint fd = -1;\nvoid f(int x){work(x);}\nint main(void){f(1); b:; fd = get(); return 0;}\n"}, 0, [
    "s.c:4:26: warning: the open of 'fd' is reached in capability mode, where it fails (ECAPMODE); no placement keeps a label before it ambient (`must = [\"amb\"]`)",
    "p.toml:4:8: warning: no rule speaks of descriptor 'fd'"], out=True)
left_by("names of the form", LEFT, ["s.c:5:5: error: `fork` and `_exit` stand in the form alone, which `procs` makes; leave the call to `detached`, or put what forks into another file",
    "s.c:10:5: error: `fork` and `_exit` stand in the form alone, which `procs` makes; leave the call to `detached`, or put what forks into another file"], LEAVES.replace("work(x)", "fork()").replace("return 0", "_exit(0)"), 3)
left_by("a result that is taken", LEFT, ["s.c:9:13: error: nobody waits for this call, so its result can't be taken; write `f(..);` alone, or leave 'f' out of `detached`"],
        LEAVES.replace("void f", "int f").replace("f(1)", "int y; y = f(1)").replace("    int y; y", "int y;  y"), 3)
left_by("several faults", policy(at("z", never="amb"), head='split = ["f"]\ndetached = ["f", "main", "k"]\n', version="2"), [
    "p.toml:3:18: error: 'main' can't run in a process that nobody waits for",
    "p.toml:3:26: error: no function 'k' in s.c; a function in `detached` has to be defined in the source",
    "p.toml:3:13: error: 'f' is in `split` too, whose calls are waited for; leave it out of one of both",
    "p.toml:2:10: note: `split` has it here",
    "p.toml:5:9: error: no label 'z' in s.c; its labels are a, b"])
left_by("a place that the form moves", policy(head='split = ["g"]\ndetached = ["f"]\n', version="2"), [
    "s.c:1:41: error: 'g' can't run in a process of its own: it changes 'q', which is of the file's scope, and the change would stay in the child", "p.toml:2:10: note: `split` has it here"],
        "int q;void f(int x){}void g(int x){f(x);q=1;}int main(void){g(1);return 0;}")
left_by("a form that nests too deep", LEFT, ["s.c:9:66: error: over the limit of nesting: statements, expressions and the expressions of a policy nest at most 64 deep; in the form, which is woven, each call of a detached function has 4 levels more"],
        LEAVES.replace("f(1);", "{" * 60 + "f(1);" + "}" * 60), 5)
left_by("a form that is too long", LEFT, ["s.c:12:1: error: over the limit of source bytes: a source has at most 262,144 bytes; put a part of it into another file; in the form, which is woven, each call of a detached function has 32 bytes more"],
        LEAVES.replace("f(1);", " " * 262020 + "f(1);"), 5)
left_by("a form of too many points", LEFT, ["s.c:1:1: error: over the limit of points: a source has at most 8,192 points; put a part of it into another file; in the form, which is woven, each call of a detached function has 4 points more"],
        LEAVES.replace("f(1);", "f(1);" * 1640), 5)
row("form", "form p.toml s.c", {"p.toml": LEFT, "s.c": LEAVES}, 0, LEAVES.replace("f(1);", "{if(!fork()){f(1);_exit(0);for(;;);}}").split("\n")[:-1], out=True)
row("form: into a file", "form p.toml s.c -o f.c", {"p.toml": LEFT, "s.c": LEAVES}, 0, [], left=["f.c"])
row("form: into its source", "form p.toml s.c -o s.c", {"p.toml": LEFT, "s.c": LEAVES}, 2, ["capweave-tell: error: 's.c' is read here, and can't be written too"], left=["s.c"])
row("form: of nothing", "form p.toml s.c", {"p.toml": NEVER, "s.c": ONE + "\n"}, 0, [ONE], out=True)
row("form: a fault", "form p.toml s.c", {"p.toml": LEFT, "s.c": LEAVES.replace("work", "fork")}, 3, ["s.c:5:5: error: `fork` and `_exit` stand in the form alone .."], front=True)
row("same: a form", "same w.c s.c", {"w.c": PROCS, "s.c": LEAVES}, 0, ["w.c: note: without its marks it is the form of s.c in which nobody waits for the call on line 9 (f)"], out=True)
row("same: another form", "same w.c s.c", {"w.c": PROCS, "s.c": LEAVES.replace("0", "1")}, 1, ["w.c:43:5: error: the woven text isn't this source from here on", "s.c:9:5: note: the source has this here"], out=True)
row("draw: a form's strategy", "draw strategy p.toml s.c --as mermaid", {"p.toml": TORN, "s.c": LEAVES}, 0, [], picture="mermaid")
row("draw: a form's play", "draw play p.toml s.c", {"p.toml": TORN, "s.c": LEAVES}, 0, [], picture="svg")
row("draw: a form's table", "draw table p.toml w.c --as html", {"p.toml": LEFT, "w.c": PROCS}, 0, [], picture="html")

# -- worlds

WOVEN_LEFT = {"p.toml": LEFT, "w.c": PROCS, "s.c": LEAVES}
WORLD = "0 on\n0 fork\n1 on\n1 on\n1 grant\n1 on\n0 on\n1 on\n1 on\n1 on\n"


def world(name, steps, status, told, **more):
    row("world: " + name, "world p.toml w.c t" + (" --source s.c" if more.pop("given", True) else ""), dict(WOVEN_LEFT, t=steps), status, told, out=True, **more)


world("processes in lines of the source", WORLD, 0, [
    "s.c:9:5: note: process 0: fork: process 1 begins",
    "s.c:9:11: note: process 0: label b: ambient",
    "s.c:9:5: note: process 1: call of f",
    "s.c:4:1: note: process 1: label a: try enter: granted",
    "s.c:4:1: note: process 1: label a: in capability mode",
    "s.c:6:1: note: process 1: f ends",
    "s.c:9:10: note: process 1: it ends by _exit",
    "t: note: 2 processes, of which 1 has ended",
    "s.c:9:14: note: process 0 stands here"])
world("in lines of the text", "0 on\n0 fork\n1 on\n", 0, [
    "w.c:43:6: note: process 0: fork: process 1 begins", "w.c:43:67: note: process 0: label b: ambient", "w.c:43:42: note: process 1: call of f", "t: note: 2 processes",
    "w.c:43:67: note: process 0 stands here", "w.c:36:6: note: process 1 stands here"], given=False)
world("no steps", "", 0, ["t: note: 1 process", "s.c:7:5: note: process 0 stands here"])
world("a process that isn't there", "0 on\n1 on\n", 1, ["t:2:1: error: this is no step: there is no process 1"])
world("another move", "0 on\n0 left\n", 1, ["t:2:1: error: this is no step: process 0 doesn't do `left` here, but `fork`", "s.c:9:5: note: process 0 stands here"])
world("an answer is due", "0 on\n0 fork\n1 on\n1 on\n1 on\n", 1, ["s.c:9:5: note: process 0: fork: process 1 begins", "s.c:9:11: note: process 0: label b: ambient", "s.c:9:5: note: process 1: call of f",
      "t:5:1: error: this is no step: process 1 doesn't do `on` here, but `grant`", "s.c:4:1: note: process 1 stands here"])
world("no answer is due", "0 on\n0 fork\n1 on\n1 on\n1 refuse\n", 1, ["s.c:9:5: note: process 0: fork: process 1 begins .."], front=True)
world("it is over", "0 on\n0 fork\n0 on\n0 on\n0 on\n0 on\n0 on\n", 1, ["s.c:9:5: note: process 0: fork: process 1 begins", "s.c:9:11: note: process 0: label b: ambient", "s.c:11:1: note: process 0: it is over",
      "t:7:1: error: this is no step: process 0 is over", "s.c:11:1: note: process 0 stands here"])
row("world: line", "world p.toml w.c t", dict(WOVEN_LEFT, t="0 on\n0  on\n"), 9, ["t:2:1: error: this line isn't of the steps' form: a process's number, one blank, a move"])
row("world: another source", "world p.toml w.c t --source s.c", dict(WOVEN_LEFT, **{"t": "0 on\n", "s.c": ONE}), 1, ["w.c: error: without its marks it isn't s.c, nor a form of it"])
row("world: a table that isn't sound", "world p.toml w.c t", dict(WOVEN_LEFT, **{"t": "", "w.c": PROCS + ("CW_AT(4,0,2)", "CW_AT(4,0,0)")}), 1, ["w.c:1:1: error: the table isn't sound for its source: .."], front=True)
row("world: woven: line", "world p.toml w.c t", dict(WOVEN_LEFT, **{"t": "", "w.c": PROCS + ("CW_MEM(1,1,", "CW_MEM(1,")}), 9, ["w.c:6:1: error: this line isn't of the table's form"])
row("world: a policy of another text", "world p.toml w.c t", dict(WOVEN_LEFT, **{"t": "", "p.toml": LEFT.replace('"a"', '"z"')}), 4, ["p.toml:1:1: error: policy: no label z"])
row("world: ended by a refusal", "world p.toml w.c t --source s.c", {"p.toml": policy(at("a", never="amb"), head='refusable = ["enter"]\non_refusal = "stop"\n'), "s.c": ONE,
    "w.c": ("weave", policy(at("a", never="amb"), head='refusable = ["enter"]\non_refusal = "stop"\n'), ONE), "t": "0 on\n0 refuse\n"}, 0, [
    "s.c:1:16: note: process 0: label a: try enter: refused", "s.c:1:16: note: process 0: it ends, since that was refused", "t: note: 1 process, of which 1 has ended"], out=True)

# -- runs over numbers, where the program has them

VALUED = "int f(int x)\n{\na:\n    return x + 1;\n}\nint main(void)\n{\n    int y;\n    y = f(get());\nb:\n    put(y);\n    put(1 / (y - 8));\n    return 0;\n}\n".replace("f(get())", "f(7)")
WOVEN_VALUED = {"p.toml": SPLIT, "w.c": ("weave", SPLIT, VALUED), "s.c": VALUED}


def valued(name, answers, status, told, code=VALUED, rules=SPLIT):
    row("values: " + name, "values p.toml w.c n --source s.c", {"p.toml": rules, "w.c": ("weave", rules, code), "s.c": code, "n": "capweave answers 1\n" + answers + "end\n"}, status, told, out=True)


valued("where it stops", "call 3\n", 1, ["s.c: note: put(8) = 3", "s.c:12:9: error: it stops here: this divides by 0; 2 tries are made"])
valued("no answer is left", "", 1, ["s.c:11:5: error: it stops here: no answer is left for this call; it takes one line `call VALUE` more; 2 tries are made"])
valued("to the end", "call 3\n", 0, ["s.c:3:5: note: put(2) = 3", "w.c: note: it ends; 0 tries are made"], "int main(void)\n{\n    put(2);\n    return 0;\n}\n", EMPTY)
valued("a parameter of main", "", 1, ["s.c:4:9: error: it stops here: a value is read that nothing has set; the answers have no line `name argc VALUE`; 0 tries are made"],
       "int put(int n);\nint main(int argc, char **argv)\n{\n    put(argc);\n    return 0;\n}\n", EMPTY)
valued("a call beside its prototype", "name argc 3\ncall 0\n", 0, ["s.c:4:5: note: put(3) = 0", "w.c: note: it ends; 0 tries are made"],
       "int put(int n);\nint main(int argc, char **argv)\n{\n    put(argc);\n    return 0;\n}\n", EMPTY)
valued("steps", "", 1, ["w.c: error: it hasn't ended after 1,000,000 steps; 0 tries are made"], "int main(void){for(;;);return 0;}", EMPTY)
valued("refused", "try refuse\n", 1, ["s.c:1:16: error: it ends here, since what is tried was refused; 1 try is made"], ONE, policy(at("a", never="amb"), head='refusable = ["enter"]\non_refusal = "stop"\n'))
for name, code, told in (("form", "v = sizeof v;", "s.c:3:9: error: it stops here: this has no value: texts, `*`, `&`, `sizeof`, arrays as a whole and the results of functions that return none have none; 0 tries are made"),
                         ("unset", "int k; v = k;", "s.c:3:16: error: it stops here: a value is read that nothing has set; 0 tries are made"),
                         ("unknown", "v = BLOCK;", "s.c:3:9: error: it stops here: the file doesn't declare this name, and the answers have no line `name BLOCK VALUE`; 0 tries are made"),
                         ("overflow", "v = 1 << 64;", "s.c:3:9: error: it stops here: the number doesn't fit into 64 bits, or a shift isn't by 0 to 63; 0 tries are made"),
                         ("index", "v = w[4];", "s.c:3:9: error: it stops here: the index is outside its array; 0 tries are made")):
    valued(name, "", 1, [told], "int v, w[4];\nint main(void)\n{   %s return 0; }\n".replace("{   %s", "{\n    %s") .replace("\nint main(void)\n{\n", "\nint main(void) {\n") % code, EMPTY)
row("values: line", "values p.toml w.c n", dict(WOVEN_VALUED, n="capweave answers 1\ncall 1\nname a 1\nend\n"), 9, [
    "n:3:1: error: this line isn't of the answers' form: `name NAME VALUE`, `try grant` or `try refuse`, `call VALUE`, in this order, and `end`"])
row("values: value form", "values p.toml w.c n", {"p.toml": EMPTY, "w.c": ("weave", EMPTY, "int main(void){int y;{int y;}return 0;}"), "n": "capweave answers 1\nend\n"}, 9, [
    "w.c:13:60: error: `values` can't tell this name's variables apart; a function declares a name once, none of the file's, and no `static` local"])
row("no such word in this capweave", "values p.toml w.c n", dict(WOVEN_VALUED, n="", broken="#!/bin/sh\necho usage: capweave COMMAND ARGUMENTS >&2\nexit 2\n"), 2, ["capweave-tell: error: this capweave has no `values`"], program="./broken")

# -- policies that can't be met, on the tools of examples/ that are there: (policy, a text in it, what comes in its place, the line that has to come first, and
# a text that has to come with it)

BROKEN = (
    ("lines.toml", 'never = ["amb"', 'must = ["in:CAP_READ"]\nnever = ["amb"', "lines.toml:16:9: error: no placement of calls can meet this policy: 'parse must in:CAP_READ' can't be met",
     "lines.c:36:5: note: in the model an open may fail and every branch behind it may go either way, whatever is tested there; `never` asks for less than `must`"),
    ("lines.toml", 'label = "parse"', 'label = "parse"\nmust = ["amb"]', "lines.toml:17:10: error: no placement of calls can meet this policy: 'parse must amb' and 'parse never amb' can't both be met",
     "lines.toml:16:9: note: it can be woven without the test 'parse must amb'"),
    ("lines.toml", "format = 1", 'format = 1\nrefusable = ["enter"]', "lines.toml:17:10: error: no placement of calls can meet this policy: 'parse never amb' can't be met",
     'lines.toml:2:1: note: it can be woven with `on_refusal = "stop"`: a refusal then ends the program'),
    ("find.toml", '"1:CAP_READ"', '"1:CAP_FSTAT"', "find.toml:31:31: error: no placement of calls can meet this policy: 'parse never 1:CAP_FSTAT' can't be met",
     "find.toml:31:31: note: no [[limit]] of the policy takes CAP_FSTAT from '1'"),
    ("find.toml", 'must = ["amb"]', 'must = ["amb", "1:CAP_SEEK"]\nnever = ["0:CAP_READ"]\n[[rule]]\nname = "in-the-end"\nbad = ".* parse .* parse[!0:CAP_READ]"',
     "find.toml:31:7: error: no placement of calls can meet this policy: 'ready never 0:CAP_READ' and 'in-the-end' can't both be met", "note: the rule 'ready never 0:CAP_READ'"),
    ("split.toml", 'split = ["classify"]\n', "", "split.toml:29:9: error: no placement of calls can meet this policy: 'judge never amb' and 'report must amb' can't both be met", 'note: it can be woven with `split = ["classify"]`'),
    ("split.toml", 'must = ["amb"]', 'must = ["amb", "errors:CAP_WRITE"]', "split.toml:20:16: error: no placement of calls can meet this policy: 'prepare must errors:CAP_WRITE' can't be met",
     "split.toml:20:16: note: 'errors' is closed at this label: no open of it comes before in this run"),
    ("head.toml", 'never = ["in:CAP_WRITE"', 'never = ["amb", "in:CAP_WRITE"', "head.toml:13:9: error: no placement of calls can meet this policy: 'openfile must amb' and 'show never amb' can't both be met",
     'note: it can be woven with `split = ["top"]`'),
    ("tee.toml", '[[at]]\nlabel = "copy"', '[[at]]\nlabel = "done"\nmust = ["amb"]\n\n[[at]]\nlabel = "copy"', "tee.toml:31:9: error: no placement of calls can meet this policy: 'done must amb' and 'copy never amb' can't both be met", "note: it can be woven without the test 'done must amb'"),
    ("wc.toml", 'label = "count"', 'label = "count"\nmust = ["in:CAP_READ"]', "wc.toml:24:9: error: no placement of calls can meet this policy: 'count must in:CAP_READ' can't be met", "wc.toml:24:9: note: it can be woven without the test 'count must in:CAP_READ'"),
)

# -- refusals of sources, each line that the program has

source("bad byte", "int main(void){return a?1:2;}", ["s.c:1:24: error: this byte begins no token; `x = a ? b : c;` is left out: write `if (a) x = b; else x = c;`"])
source("open comment", "int main(void){return 0;} /* no end", ["s.c:1:27: error: this comment has no end"])
source("open string", "int main(void){f(\"no end);\nreturn 0;}", ["s.c:1:18: error: this text has no end on its line, or an escape that C doesn't have"])
source("number", "int main(void){return 08;}", ["s.c:1:23: error: this is no number of the subset; decimal, octal or 0x hexadecimal, at most 64 bits, with u and l or ll behind"])
source("directives", "#define A 1\n#include <a.h>\n#pragma once\nint main(void){return A;}\n", [
    "s.c:1:1: error: of all directives only #include is taken; for a number write `static const int NAME = ..;`, other macros go into a header of your own",
    "s.c:3:1: error: of all directives only #include is taken; for a number write `static const int NAME = ..;`, other macros go into a header of your own"])
source("marker", "/*cw{*/int main(void){return 0;}", ["s.c:1:3: error: the source has 'cw{*' or '*}cw' in it, which mark insertions; take a source without insertions; `cut` them out of a woven text"])
source("syntax: several", "int main(void){\n    int i, j;\n    size_t n;\n    struct s t;\n    for (i = 0, j = 0; i < 2; i++) {\n        switch (i) { case 1: break; }\n    }\n    FILE *f = g();\n    i = 1\n    j = 2;\n    return 0;\n}\n", [
    "s.c:3:12: error: 'size_t' is read as a name, and no name can follow it; write unsigned long for size_t",
    "s.c:4:5: error: `struct` is left out of the subset; write plain variables and arrays, or another file for what needs it",
    "s.c:5:15: error: nothing of the subset goes on with ',' here; the comma operator is left out: write two statements",
    "s.c:6:9: error: `switch` is left out of the subset; write a chain of `if`s",
    "s.c:8:13: error: 'FILE * f' is read as a product; write another file for what uses stdio's streams for FILE",
    "s.c:10:5: error: nothing of the subset goes on with 'j' here; is a ';' missing at the end of the line before?"])
source("syntax: a type of a header first", "static size_t n;\nint main(void){\n    return 0;\n}\n", ["s.c:1:8: error: `size_t` is no type of the subset; write unsigned long for size_t"])
source("call form: in a loop's condition", "int f(int a){return a;}\nint main(void){\n    int c;\n    while ((c = f(1)) > 0) c--;\n    return !f(2);\n}\n", [
    "s.c:4:17: error: the call of 'f' isn't a statement of its own; write `x = f(..);` before the loop and at the end of each round, and test x",
    "s.c:5:13: error: the call of 'f' isn't a statement of its own; write `x = f(..); return x;`"])
row("a label that has a function's name, of which the policy speaks", "weave p.toml s.c", {"p.toml": policy(at("f", never="amb")), "s.c": "int f(int a){return a;}\nint main(void){\nf:\n    return 0;\n}\n"}, 3, [
    "s.c:3:1: error: the label 'f' has the name of a function; give it another name"])
source("syntax: the end", "int main(void){\n    if (1) {\n    return 0;\n}\n", ["s.c:4:2: error: the text ends here, and something is still open", "s.c:1:15: note: this '{' isn't closed"])
source("syntax: brackets", "int main(void){\n    if (f(1) {\n        g();\n    }\n    int i, j = 1, 2;\n    return 0;\n}\n", [
    "s.c:2:14: error: nothing of the subset goes on with '{' here", "s.c:2:8: note: this '(' is still open where '}' stands on line 7"])
source("two functions", "int f(void){return 0;}int f(void){return 0;}" + PLAIN, ["s.c:1:27: error: this function is defined a second time: 'f'", "s.c:1:5: note: it stands here before"])
source("two labels", "int main(void){a:;a:;return 0;}", ["s.c:1:19: error: this label stands a second time in its function: 'a'; labels are unique in their function", "s.c:1:16: note: it stands here before"])
source("arity", "int f(int a){return a;}int main(void){f();return 0;}", ["s.c:1:39: error: 'f' takes 1 argument"])
source("call form: several", "int f(int a){return a;}\nint main(void){\n    int x = f(1);\n    if (f(1)) x = 1;\n    x = a() + b();\n    f(g());\n    return f(2);\n}\n", [
    "s.c:3:13: error: the call of 'f' isn't a statement of its own; write `int x; x = f(..);`, the declaration apart",
    "s.c:4:9: error: the call of 'f' isn't a statement of its own; write `x = f(..);` before it, and x here",
    "s.c:5:15: error: a second call stands in one expression; C leaves the order of two open: put the first into a variable",
    "s.c:6:5: error: the call of 'f' isn't a statement of its own; its arguments can hold no call, and it stands as `f(..);` or `x = f(..);` alone",
    "s.c:7:12: error: the call of 'f' isn't a statement of its own; write `x = f(..); return x;`"])
source("call form: a label", "int f(int a){return a;}int main(void){f:;return 0;}", ["s.c:1:39: error: the label 'f' has the name of a function; give it another name"])
source("call form: a variable", "int f(int a){return a;}int main(void){int f;return 0;}", [
    "s.c:1:43: error: 'f' is a function of this file, and stands here without being called; variables and parameters have other names, and a function's address isn't taken"])
source("main called", "int main(void){main();return 0;}", ["s.c:1:16: error: main is called; put what is to be called again into a function of its own"])
source("reserved", "int cw_x;int main(void){cw_x=1;return 0;}", ["s.c:1:5: error: names that begin with cw_ or CW_ are taken by the insertions: 'cw_x'; use another name"])
source("jump: several", "int main(void){break;if(1)continue;return 0;}", ["s.c:1:16: error: `break` stands in no loop", "s.c:1:27: error: `continue` stands in no loop"])
source("misuse: several", "int fd = -1;\nint main(void){\n    if ((fd = open(\"a\", 0)) < 0) return 1;\n    fd++;\n    --fd;\n    h(&fd);\n    fd = -1;\n    if (close(fd) < 0) return 1;\na:\n    return 0;\n}\n", [
    "s.c:3:10: error: an open of 'fd' has to be a statement of its own; write `fd = f(..);` alone, with f external, and test `fd < 0` behind it",
    "s.c:4:5: error: a descriptor's variable is counted up or down",
    "s.c:5:5: error: a descriptor's variable is counted up or down",
    "s.c:6:7: error: the address of a descriptor's variable is taken; another function could change it unseen",
    "s.c:7:5: error: 'fd' is a descriptor of the policy, and gets its value here; only `fd = f(..);` with f external may set it; to mark it as closed close it",
    "s.c:8:9: error: a close of a descriptor has to be a statement of its own; write `close(d);` alone"], policy(descriptor("fd")))
source("no main", "int f(void){return 0;}", ["s.c:1:1: error: the source defines no main"])
source("no variable: none", ONE, ["p.toml:3:8: error: no variable 'fd' at the scope of s.c; write `static int fd = -1;` before the first function"], policy(descriptor("fd")))
source("no variable: near", "static int input = -1;" + ONE, ["p.toml:3:8: error: no variable 'imput' at the scope of s.c; did you mean 'input'?"], policy(descriptor("imput")))
for words, why in (("extern int fd;", "it is extern"), ("const int fd = -1;", "it is const"), ("unsigned fd;", "it is unsigned"), ("int *fd;", "it is a pointer"), ("long fd;", "it is a long"),
                   ("char fd;", "it is a char"), ("int fd[2];", "it is an array"), ("int fd = 0;", "it may have no initialiser but -1")):
    source("no variable: " + why, words + ONE, ["s.c:1:%d: error: 'fd' is no descriptor's variable: %s; write `static int fd = -1;` before the first function" % (words.index("fd") + 1, why),
                                                "p.toml:3:8: note: the policy names it here"], policy(descriptor("fd")))
source("no variable: twice", "int fd;int fd;" + ONE, ["s.c:1:12: error: 'fd' is no descriptor's variable: it is declared twice", "p.toml:3:8: note: the policy names it here"], policy(descriptor("fd")))
source("no variable: late", "void f(void){}int fd;" + ONE, ["s.c:1:19: error: 'fd' is no descriptor's variable: it is declared behind the first function; write `static int fd = -1;` before the first function",
    "p.toml:3:8: note: the policy names it here"], policy(descriptor("fd")))
source("no variable: local", "int main(void){int fd;a:;return 0;}", ["s.c:1:20: error: 'fd' is no descriptor's variable: it isn't declared at the file's scope; write `static int fd = -1;` before the first function",
    "p.toml:3:8: note: the policy names it here"], policy(descriptor("fd")))
source("shadowed, each", "int fd;void f(int fd){fd=1;}int main(void){int x,fd;fd=2;return 0;}", [
    "s.c:1:19: error: 'fd' is a descriptor of the policy, and a parameter or a local variable has its name; give it another name", "p.toml:3:8: note: the policy names it here",
    "s.c:1:50: error: 'fd' is a descriptor of the policy, and a parameter or a local variable has its name; give it another name", "p.toml:3:8: note: the policy names it here"], policy(descriptor("fd")))

# -- refusals of policies

refused("toml: no value", "format = 1\n[[at]]\nlabel = a\nnever = [\"amb\"]\n", ['p.toml:3:9: error: no TOML: a value should stand here; texts stand in quotes: "a"'])
refused("toml: two places", "format = 1\n[[at]\nlabel = \"a\"\nnever = [\"amb\"\nmust = [\"amb]\n", [
    "p.toml:2:5: error: no TOML: the header isn't closed: ]] should stand here",
    "p.toml:4:9: error: no TOML: this array isn't closed", 'p.toml:5:9: error: no TOML: this text has no closing "'])
for text, at_place, what in (
        ("format = 1\nformat = 2\n", "2:1", "the key 'format' stands here a second time"), ("format 1\n", "1:8", "'=' should stand behind the key"), ("format = 1 2\n", "1:12", "the line should end here"),
        ("= 1\n", "1:1", "a key should stand here"), ("format = 1\n[[at]]\nlabel = \"\\q\"\n", "3:10", "TOML has no such escape; write '\\\\' for a backslash"),
        ("format = 1\nsplit = [\"a\" \"b\"]\n", "2:14", "',' or ']' should stand here, of the array that begins on line 2"), ("format = 1\nat = [{label = \"a\"; }]\n", "2:19", "',' or '}' should stand here"),
        ("format = 1\n[at]\n[[at]]\n", "3:3", "'at' stands above as something else than [[at]]"), ("format = 1\n[at]\n[at]\n", "3:2", "the key 'at' stands here a second time"),
        ("format = 1\n[[at]]\nlabel = \"a\x01\"\n", "3:11", "a control byte stands in a text"), ("format = 01\n", "1:10", "a value should stand here"), ("format = 1\n[format.x]\n", "2:2", "'format' is no table that can be gone on with")):
    refused("toml: " + what, text, ["p.toml:%s: error: no TOML: %s" % (at_place, what)])
refused("missing format", '[[at]]\nlabel = "a"\n', ["p.toml:1:1: error: missing key 'format'; write `format = 1` before the first table"])
refused("missing key", "format = 1\n[[at]]\nnever = [\"amb\"]\n", ["p.toml:2:1: error: missing key 'label' in at[0]; it has to be a C name"])
refused("missing keys", "format = 1\n[[limit]]\n[[rule]]\n[[descriptor]]\n", [
    "p.toml:4:1: error: missing key 'name' in descriptor[0]; it has to be the C name of a variable, or \"0\", \"1\" or \"2\"",
    "p.toml:2:1: error: missing key 'descriptor' in limit[0]; it has to be the name of a descriptor, as a string", "p.toml:2:1: error: missing key 'keep' in limit[0]; it has to be an array of rights",
    "p.toml:3:1: error: missing key 'name' in rule[0]; it has to be letters, digits, _ and -, the first a letter or _", "p.toml:3:1: error: missing key 'bad' in rule[0]; it has to be an expression, as a string"])
refused("unknown key that was meant as another", NEVER + '[[at]]\nlable = "a"\nmust = ["amb"]\n', ["p.toml:6:1: error: unknown key 'lable' in at[1]; did you mean 'label'?"])
refused("unknown keys", 'formt = 1\nformat = 1\nrefuse = 1\n[[at]]\nlabel = "a"\nkeep = []\nnevr = ["amb"]\n', [
    "p.toml:1:1: error: unknown key 'formt' in the policy's root; the keys there are format, refusable, split, on_refusal, descriptor, limit, at, rule",
    "p.toml:3:1: error: unknown key 'refuse' in the policy's root; did you mean 'refusable'?",
    "p.toml:3:10: error: refusable has to be an array of \"limit\", \"enter\" and \"split\"",
    "p.toml:6:1: error: unknown key 'keep' in at[0]; it is a key of [[limit]]", "p.toml:7:1: error: unknown key 'nevr' in at[0]; did you mean 'never'?"])
refused("unknown key of format 2", 'format = 1\ndetached = ["f"]\n', ["p.toml:2:1: error: unknown key 'detached' in the policy's root; it needs `format = 2`"])
refused("unknown descriptor", policy(descriptor("0"), limit("1")), ["p.toml:5:14: error: no descriptor '1' in the policy; its descriptors are 0"])
refused("unknown rights", policy(descriptor("0", "CAP_RAED", "READ", "CAP_PREAD"), limit("0", "CAP_MMAP")), [
    "p.toml:4:11: error: 'CAP_RAED' is none of the twelve rights; did you mean 'CAP_READ'?", "p.toml:4:23: error: 'READ' is none of the twelve rights; did you mean 'CAP_READ'?",
    "p.toml:4:31: error: 'CAP_PREAD' is none of the twelve rights; it needs `format = 2`", "p.toml:7:9: error: 'CAP_MMAP' is none of the twelve rights; docs/POLICIES.md lists them"])
refused("kinds of the root", 'format = "1"\nrefusable = ["entr"]\nsplit = "f"\non_refusal = "halt"\nrule = 1\n[at]\nlabel = "a"\n', [
    "p.toml:1:10: error: format has to be 1 or 2; write it without quotes", "p.toml:2:14: error: refusable[0] has to be \"limit\", \"enter\" or \"split\"; did you mean 'enter'?",
    "p.toml:3:9: error: split has to be an array of names of functions; write [\"f\"]", "p.toml:4:14: error: on_refusal has to be \"go\" or \"stop\"",
    "p.toml:6:1: error: at has to be an array of tables: [[at]]; write [[at]], with two brackets", "p.toml:5:8: error: rule has to be an array of tables: [[rule]]"])
refused("kinds of tables", policy(descriptor("a b"), '[[limit]]\ndescriptor = 0\nkeep = "CAP_READ"\n', '[[at]]\nlabel = "a-b"\nmust = "amb"\nnever = [1]\n', '[[rule]]\nname = "1"\nbad = 2\n'), [
    "p.toml:3:8: error: descriptor[0].name has to be the C name of a variable, or \"0\", \"1\" or \"2\"", "p.toml:5:14: error: limit[0].descriptor has to be the name of a descriptor, as a string",
    "p.toml:6:8: error: limit[0].keep has to be an array of rights; write [\"CAP_READ\"]", "p.toml:8:9: error: at[0].label has to be a C name",
    "p.toml:9:8: error: at[0].must has to be an array of tests; write [\"amb\"]",
    "p.toml:10:10: error: at[0].never[0] has to be a test: \"amb\" or \"DESCRIPTOR:RIGHT\", with \"!\" before it to turn it round",
    "p.toml:12:8: error: rule[0].name has to be letters, digits, _ and -, the first a letter or _", "p.toml:13:7: error: rule[0].bad has to be an expression, as a string"])
refused("tests", policy(descriptor("in"), at("a", must="am;inn:CAP_READ;in:CAP_REED; amb;in")), [
    "p.toml:6:9: error: this is no test; tests are \"amb\" and \"DESCRIPTOR:RIGHT\", with \"!\" before to turn them round; did you mean 'amb'?",
    "p.toml:6:16: error: no descriptor 'inn' in the policy; did you mean 'in'?", "p.toml:6:35: error: 'CAP_REED' is none of the twelve rights; did you mean 'CAP_READ'?",
    "p.toml:6:46: error: a blank stands before or after the test; take it away",
    "p.toml:6:54: error: this is no test; tests are \"amb\" and \"DESCRIPTOR:RIGHT\", with \"!\" before to turn them round"], "int in;" + ONE)
refused("twice: a descriptor", policy(descriptor("0"), descriptor("0")), ["p.toml:5:8: error: descriptor '0' stands a second time", "p.toml:3:8: note: it stands here before"])
refused("twice: a function", policy(head='split = ["f", "f"]\n'), ["p.toml:2:15: error: function 'f' stands a second time", "p.toml:2:10: note: it stands here before"], CALLED)
refused("twice: a rule", policy(rule("a"), rule("a a")), ["p.toml:6:8: error: rule 'r' stands a second time", "p.toml:3:8: note: it stands here before"])
for bad, place, what in (("a[", 10, "ends too early; ']' is missing"), ("(a", 10, "ends too early; ')' is missing"), ("a ", 10, "ends too early; take the blank at its end away"), ("", 8, "ends too early"),
                         (" a", 8, "can't go on like this; take the blank at its begin away"), ("a ]", 10, "can't go on like this; no [ is open"), ("a)", 9, "can't go on like this; no ( is open"),
                         ("* a", 8, "can't go on like this; a star stands behind what it repeats: `.*` is any labels"), ("a, b", 9, "can't go on like this; a comma stands only between tests in brackets"),
                         ("a-b", 9, "can't go on like this; names of labels have no -"), ("[amb] a", 8, "can't go on like this; tests stand behind a label or a dot: `.[amb]`")):
    refused("regex: " + (bad or "empty"), policy(rule(bad)), ["p.toml:4:%d: error: the expression of rule 'r' %s" % (place, what)])
refused("regex: names", policy(descriptor("in"), rule("a[inn:CAP_READ]", "q"), rule("a[in:READ]", "s")), [
    "p.toml:6:10: error: no descriptor 'inn' in the policy; did you mean 'in'?", "p.toml:9:13: error: 'READ' is none of the twelve rights; did you mean 'CAP_READ'?"], "int in;" + ONE)
refused("no label, each", policy(at("begn", never="amb"), at("q", must="amb"), rule(".* begn .* q")), [
    "p.toml:3:9: error: no label 'begn' in s.c; did you mean 'begin'?", "p.toml:10:11: error: no label 'begn' in s.c; did you mean 'begin'?",
    "p.toml:6:9: error: no label 'q' in s.c; its labels are begin", "p.toml:10:19: error: no label 'q' in s.c; its labels are begin"], "int main(void){begin:;return 0;}")
refused("no label: a function", policy(at("main", never="amb")), ["p.toml:3:9: error: no label 'main' in s.c; its labels are a; 'main' is a function: put a label into it"])
refused("no functions", policy(head='split = ["ff", "g"]\n'), ["p.toml:2:10: error: no function 'ff' in s.c; did you mean 'f'?", "p.toml:2:16: error: no function 'g' in s.c; a function in `split` has to be defined in the source"], CALLED)
for text, column, why in (
        ("int g;void f(int x){g=x;}", 21, "it changes 'g', which is of the file's scope, and the change would stay in the child"), ("int g;void f(int x){g++;}", 21, "it changes 'g', which is of the file's scope, and the change would stay in the child"),
        ("int g;void f(int x){++g;}", 21, "it changes a variable of the file, and the change would stay in the child"), ("int g[2];void f(int x){g[0]=x;}", 24, "it changes 'g', which is of the file's scope, and the change would stay in the child"),
        ("int g[2];void f(int x){h(g);}", 26, "'g' is an array of the file's scope, and stands here as more than the base of an index that is read"), ("int g;void f(int x){h(&g);}", 23, "it takes the address of a variable that the parent has too"),
        ("void f(int x){static int s;}", 15, "a static local variable would stay in the child"), ("void f(int*x){x=0;}", 6, "its result has to be void or a plain int, and its parameters plain char, int or long, without stars and brackets"),
        ("char*f(int x){return 0;}", 6, "its result has to be void or a plain int, and its parameters plain char, int or long, without stars and brackets"), ("void f(int x){h(*x);}", 17, "it reads or writes through a parameter that is a pointer"),
        ("int fd;void f(int x){fd=get();}", 22, "it opens a descriptor of the policy"), ("int fd;void f(int x){close(fd);}", 22, "it closes a descriptor of the policy")):
    refused("not splittable: " + text, policy(descriptor("fd") if "fd" in text else "", head='split = ["f"]\n'), [
        "s.c:1:%d: error: 'f' can't run in a process of its own: %s" % (column, why), "p.toml:2:10: note: `split` has it here"], text + PLAIN)
refused("detached", policy(head='detached = ["f"]\n', version="2"), ["p.toml:2:1: error: `weave` waits for every call; a policy with detached functions is woven by `procs`"], CALLED)
row("policy and source at once", "weave p.toml s.c", {"p.toml": policy(at("a", nevr="amb")), "s.c": "int main(void){break;a:;return 0;}"}, 4, [
    "p.toml:4:1: error: unknown key 'nevr' in at[0]; did you mean 'never'?", "s.c:1:16: error: `break` stands in no loop"])

# -- limits, at the place where there is one

refused("limit: policy bytes", "#" * 65537, ["p.toml:1:1: error: over the limit of policy bytes: a policy has at most 65,536 bytes"], status=5)
refused("limit: descriptors", policy(*[descriptor("d%d" % number) for number in range(9)]), ["p.toml:18:1: error: over the limit of descriptors: a policy has at most 8 descriptors"],
        "int %s;" % ",".join("d%d" % number for number in range(9)) + ONE, 5)
refused("limit: limits", policy(descriptor("0"), *[limit("0")] * 13), ["p.toml:40:1: error: over the limit of limits: a policy has at most 12 limits"], status=5)
refused("limit: rules", policy(at("a", never=";".join(["amb"] * 33))), ["p.toml:4:234: error: over the limit of rules: a policy has at most 32 rules, and each test of an `at` is one"], status=5)
refused("limit: rule positions", policy(rule(" ".join("a" * 64))), ["p.toml:1:1: error: over the limit of rule positions: the rules of a policy have at most 63 literals; each test of an `at` has two"], status=5)
refused("limit: nesting of a rule", policy(rule("(" * 65 + "a" + ")" * 65)), ["p.toml:4:72: error: over the limit of nesting: statements, expressions and the expressions of a policy nest at most 64 deep"], status=5)
source("limit: nesting of a source", "int main(void){" + "{" * 65 + "}" * 65 + "return 0;}", ["s.c:1:80: error: over the limit of nesting: statements, expressions and the expressions of a policy nest at most 64 deep"], status=5)
source("limit: source bytes", " " * 262145, ["s.c:1:262145: error: over the limit of source bytes: a source has at most 262,144 bytes; put a part of it into another file"], status=5)
source("limit: functions", "\n".join("void f%d(void){}" % number for number in range(512)) + "\n" + PLAIN, ["s.c:513:5: error: over the limit of functions: a source has at most 512 functions"], status=5)
source("limit: labels", "int main(void){\n%s return 0;}\n" % "".join("l%d:;\n" % number for number in range(257)), ["s.c:258:1: error: over the limit of labels: a source has at most 256 names of labels"], status=5)
source("limit: points", "int main(void){" + ";" * 8193 + "return 0;}", ["s.c:1:1: error: over the limit of points: a source has at most 8,192 points; put a part of it into another file"], status=5)
refused("limit: rights states", policy(*[descriptor("d%d" % number) for number in range(7)]), ["p.toml:1:1: error: over the limit of rights states: there are more than 128 sets of capabilities: name fewer descriptors or fewer limits"],
        "int %s;" % ",".join("d%d" % number for number in range(7)) + ONE, 5)
refused("limit: policy states", policy(rule(".* a" + " ." * 10)), ["p.toml:1:1: error: over the limit of policy states: the rules need more than 64 states: fewer or shorter rules"], TWO, 5)
refused("limit: product states", policy(descriptor("0"), descriptor("1"), limit("0", "CAP_READ"), limit("0", "CAP_WRITE"), limit("1", "CAP_READ"), limit("1", "CAP_WRITE"), limit("0"), limit("1"), rule(" ".join("a" * 60))), [
    "p.toml:1:1: error: over the limit of product states: states of rules times sets of capabilities are too many: fewer rules, descriptors or limits"], status=5)
refused("limit: positions times states", policy(descriptor("0"), limit("0", "CAP_READ"), limit("0", "CAP_WRITE"), limit("0"), rule(" ".join("a" * 50))), [
    "s.c:1:1: error: over the limit of positions times states: points times states are too many: a smaller source, or fewer rules and limits"], "int main(void){a:;" + ";" * 8000 + "return 0;}", 5)
row("limit: file bytes", "draw table p.toml w.c", {"p.toml": EMPTY, "w.c": " " * 16777217}, 5, ["w.c:1:1: error: over the limit of file bytes: the file is too long"])
source("limit: cells", "int v;void f(int x){if(c){for(;;){" + "".join("x%d:;" % number for number in range(240)) + ";" * 3536 + "}}}int main(void){if(c){for(;;){" + ";" * 20 + "}}" + "".join(
    "f(1);l%d:;" % number for number in range(4)) + "return 0;}", ["s.c:1:1: error: over the limit of cells: the game is too large: a smaller source, or fewer rules and limits"],
    policy(*[descriptor(name, "CAP_READ") for name in "012v"] + [limit(name) for name in "012"] + [at("l%d" % number, must="%d:CAP_READ" % number) for number in range(3)] + [at("l3", must="amb")]), 5)
source("limit: rows", "int v0,v1,v2,v3;int main(void){;" + "".join("v%d=o();" % number for number in range(4)) + ";" * 4091 + "return 0;}", [
    "s.c:1:1: error: over the limit of rows: the answer has more than 65,536 rows: a smaller source, or fewer rules and limits"], policy(*[descriptor("v%d" % number) for number in range(4)]), 5)

# -- files that can't be read or written, and a program that ends otherwise

row("read: no such file", "explain none.toml s.c", {"s.c": ONE}, 6, ["none.toml: error: can't be read: No such file or directory"])
row("read: a folder", "explain p.toml .", {"p.toml": NEVER}, 6, [".: error: can't be read: Is a directory"])
row("write: a full disk", "weave -q p.toml s.c -o /dev/full", {"p.toml": NEVER, "s.c": ONE}, 7, ["capweave-tell: error: /dev/full can't be written: No space left on device"])
row("no program", "weave p.toml s.c", {"p.toml": NEVER, "s.c": ONE}, 6, ["capweave-tell: error: ./none can't be run: No such file or directory"], program="./none")
row("want of memory", "weave p.toml s.c", {"p.toml": NEVER, "s.c": ONE, "broken": "#!/bin/sh\necho memory >&2\nexit 8\n"}, 8, ["capweave-tell: error: capweave finds no memory"], program="./broken")
row("a line that is new", "weave p.toml s.c", {"p.toml": NEVER, "s.c": ONE, "broken": "#!/bin/sh\necho policy: quantum 7 >&2\nexit 4\n"}, 4, ["p.toml:1:1: error: policy: quantum 7"], program="./broken")
row("a signal", "weave p.toml s.c", {"p.toml": NEVER, "s.c": ONE, "broken": "#!/bin/sh\nkill -SEGV $$\n"}, 6, ["capweave-tell: error: ./broken was ended by signal 11"], program="./broken")

# -- use

row("usage: no word", "", {}, 2, ["usage: capweave-tell [-h] [--format {text,json,sarif}] .."], front=True)
row("usage: too few", "weave p.toml", {}, 2, ["usage: capweave-tell weave [-h] [--format {text,json,sarif}] .."], front=True)
row("usage: draw", "draw graph a b", {}, 2, ["capweave-tell: error: usage: capweave-tell draw graph SOURCE [-o FILE]"])
row("usage: format", "--format xml same a b", {}, 2, ["usage: capweave-tell [-h] [--format {text,json,sarif}] .."], front=True)
row("help", "--help", {}, 0, ["usage: capweave-tell [-h] [--format {text,json,sarif}] .."], out=True, front=True)
row("help of a word", "weave --help", {}, 0, ["usage: capweave-tell weave [-h] [--format {text,json,sarif}] .."], out=True, front=True)
row("version", "--version", {}, 0, ["capweave-tell 0.1 (.."], out=True, front=True)
row("passed on", "graph s.c", {"s.c": ONE}, 0, ["points 5", "function main 0 4", "0 main entry -> 1", "1 main label a -> 2", "2 main step -> 3", "3 main step -> 4", "4 main exit"], out=True)
row("passed on: its fault", "check p.toml", {}, 2, ["usage: capweave check POLICY WOVEN"])
row("passed on: no word of either", "nothing", {}, 2, ["usage: capweave COMMAND ARGUMENTS"])
row("colour", "--color always weave p.toml s.c", {"p.toml": policy(at("z", never="amb")), "s.c": ONE}, 4, [
    "\033[1mp.toml:3:9:\033[0m \033[1;31merror:\033[0m no label 'z' in s.c; its labels are a", '    3 | label = "z"', "      |         \033[1;32m^~~\033[0m"], whole=True)
row("tabs and bytes that aren't ASCII", "weave p.toml s.c", {"p.toml": EMPTY, "s.c": "int main(void){\n\tf(\"\u00e9\"); break;\n return 0;}\n"}, 3, [
    "s.c:2:11: error: `break` stands in no loop", "    2 | \tf(\"\u00e9\"); break;", "      | \t        ^~~~~"], whole=True)
row("lines that end with CR LF", "weave p.toml s.c", {"p.toml": NEVER.replace("\n", "\r\n").replace('"a"', '"z"'), "s.c": ONE}, 4, ["p.toml:3:9: error: no label 'z' in s.c; its labels are a", '    3 | label = "z"', "      |         ^~~"], whole=True)
row("format 2", "explain p.toml s.c", {"p.toml": policy(descriptor("0"), limit("0", "CAP_PREAD"), at("a", never="0:CAP_WRITE"), version="2"), "s.c": ONE}, 0, [
    "s.c:1:16: note: label a: limit 0 (standard input) to CAP_PREAD; for p.toml:9 (never 0:CAP_WRITE) .."], out=True, front=True)
row("other spellings of TOML", "explain p.toml s.c", {"p.toml": "'format' = 0x1 # one\nat = [ {label = 'a', never = [\n  \"\"\"am\\\n  b\"\"\", # yes\n]} ]\n", "s.c": ONE}, 0, [
    "s.c:1:16: note: label a: enter; for p.toml:3 (never amb) .."], out=True, front=True)

# -- pictures: what they hold is looked at below

for words, files in (("graph s.c", {"s.c": LINES}), ("table p.toml w.c", {"p.toml": LINES_POLICY, "w.c": ("weave", LINES_POLICY, LINES)}), ("strategy p.toml s.c", {"p.toml": MUST_READ, "s.c": LINES}),
                     ("play p.toml s.c", {"p.toml": MUST_READ, "s.c": LINES}), ("strategy p.toml s.c g", {"p.toml": BOTH, "s.c": TWO, "g": ("weave", BOTH, TWO)}),
                     ("play p.toml s.c g t", {"p.toml": BOTH, "s.c": TWO, "g": ("weave", BOTH, TWO), "t": "skip try"})):
    for form in ("svg", "dot", "mermaid", "html"):
        row("draw %s as %s" % (words, form), "draw %s --as %s" % (words, form), files, 0, [], picture=form)
row("draw by the ending", "draw graph s.c -o g.dot", {"s.c": ONE}, 0, [], left=["g.dot"])
row("draw: dot", "draw graph s.c --as dot", {"s.c": ONE}, 0, ["digraph drawn {", '  node [shape=box, fontname="monospace"];', "  subgraph cluster_0 {", '    label="main";', '    p0 [label="0 entry, line 1"];', '    p1 [label="1 label a, line 1"];',
    '    p2 [label="2 step, line 1"];', '    p3 [label="3 step, line 1"];', '    p4 [label="4 exit, line 1"];', "  }", "  p0 -> p1;", "  p1 -> p2;", "  p2 -> p3;", "  p3 -> p4;", "}"], out=True)
row("draw: mermaid", "draw table p.toml w.c --as mermaid", {"p.toml": NEVER, "w.c": ("weave", NEVER, ONE)}, 0, ["flowchart TD", '  subgraph f0["main"]', '    p0["0 entry, line 1"]', '    p1["1 label a, line 1<br>enter"]', '    p2["2 step, line 1"]',
    '    p3["3 step, line 1"]', '    p4["4 exit, line 1"]', "  end", "  p0 --> p1", "  p1 --> p2", "  p2 --> p3", "  p3 --> p4"], out=True)
row("draw: a source's fault", "draw graph s.c", {"s.c": "int main(void){break;continue;return 0;}"}, 3, ["s.c:1:16: error: `break` stands in no loop", "s.c:1:22: error: `continue` stands in no loop"])
row("draw: a policy's fault", "draw strategy p.toml s.c", {"p.toml": policy(at("z", never="amb")), "s.c": ONE}, 4, ["p.toml:3:9: error: no label 'z' in s.c; its labels are a"])
row("draw: no strategy", "draw strategy p.toml s.c", {"p.toml": NEVER, "s.c": ONE}, 1, ["p.toml: error: this policy can be met, so there is no strategy; draw the table"])
row("draw: a table that isn't sound", "draw table p.toml w.c", {"p.toml": NEVER, "w.c": ("weave", NEVER, ONE, "CW_LIVE(8,2)", "CW_LIVE(8,1)")}, 1, ["w.c:1:1: error: the table isn't sound for its source: live 6 condition 6"])
row("draw: a strategy that doesn't beat", "draw strategy p.toml s.c g", {"p.toml": BOTH, "s.c": TWO, "g": ("weave", BOTH, TWO, "13 0 0 0x0 both 10 12", "13 0 0 0x0 both 10 13")}, 1, [
    "g:1:1: error: the strategy doesn't beat every placement: row 13 condition 1"])
for name, words, files, told in (
        ("woven: mark", "table p.toml w.c", {"w.c": ("weave", NEVER, ONE, "CW_ENTRY(0);", "CW_ENTRX(0);")}, "w.c:19:23: error: this insertion isn't closed, or is no mark"),
        ("woven: no woven text", "table p.toml w.c", {"w.c": ONE}, "w.c:1:1: error: a woven text begins with /*cw{*/"),
        ("woven: line", "table p.toml w.c", {"w.c": ("weave", NEVER, ONE, "CW_AT(1,1,2)", "CW_AT(1,1)")}, "w.c:17:1: error: this line isn't of the table's form"),
        ("woven: order", "table p.toml w.c", {"w.c": ("weave", NEVER, ONE, "CW_MEM(1,1,0xf)", "CW_MEM(3,1,0xf)")}, "w.c:6:1: error: this line's number or key isn't the next one of the table"),
        ("woven: misplaced", "table p.toml w.c", {"w.c": ("weave", NEVER, ONE, "CW_LABEL(1)", "CW_LABEL(2)")}, "w.c:19:51: error: the mark of seam 1 isn't here, or isn't of this kind"),
        ("woven: its source", "table p.toml w.c", {"w.c": ("weave", NEVER, ONE, "return 0;", "break;")}, "w.c:19:77: error: this stands in no loop"),
        ("strategy: line", "strategy p.toml s.c g", {"s.c": ONE, "g": "capweave strategy 1\nstates 4\n0 0 0 0x0 bed\nend\n"}, "g:3:1: error: this line isn't of the strategy's form"),
        ("strategy: order", "strategy p.toml s.c g", {"s.c": ONE, "g": "capweave strategy 1\nstates 4\n1 0 0 0x0 bad\nend\n"}, "g:3:1: error: this line's number or key isn't the next one of the strategy"),
        ("tape: line", "play p.toml s.c g t", {"p.toml": BOTH, "s.c": TWO, "g": ("weave", BOTH, TWO), "t": "skip\nskipp\n"}, "t:2:1: error: this line isn't of the tape's form")):
    row("draw: " + name, "draw " + words, dict({"p.toml": NEVER}, **files), 9, [told])


# -- running a row

class Failed(Exception):
    pass


def run(words, folder, program):
    """Runs the companion: in this process, or, where its words are passed on, in one of its own. Gives status, standard output and standard error."""
    environment = dict(os.environ, CAPWEAVE=program, COLUMNS="80")
    environment.pop("NO_COLOR", None)
    if words and words[0] in tell.WORDS or words[:1] != ["--version"] and words and words[0].startswith("-"):
        return run_here(words, folder, environment)
    ran = subprocess.run([sys.executable, TELL] + words, cwd=folder, env=environment, stdout=subprocess.PIPE, stderr=subprocess.PIPE)
    return ran.returncode, ran.stdout.decode("utf-8", "replace"), ran.stderr.decode("utf-8", "replace")


def run_here(words, folder, environment):
    kept = os.getcwd(), dict(os.environ), sys.argv, sys.stdout, sys.stderr
    out, err = io.TextIOWrapper(io.BytesIO(), encoding="utf-8"), io.TextIOWrapper(io.BytesIO(), encoding="utf-8")
    try:
        os.chdir(folder)
        os.environ.clear()
        os.environ.update(environment)
        sys.argv, sys.stdout, sys.stderr = [TELL] + words, out, err
        try:
            status = tell.ended()
        except SystemExit as ended:                 # of the reader of words
            status = ended.code or 0
    finally:
        os.chdir(kept[0])
        os.environ.clear()
        os.environ.update(kept[1])
        sys.argv, sys.stdout, sys.stderr = kept[2:]
    out.flush()
    err.flush()
    return status, out.buffer.getvalue().decode("utf-8", "replace"), err.buffer.getvalue().decode("utf-8", "replace")


def put_files(files, folder, program):
    for name, text in files.items():
        path = os.path.join(folder, name)
        if isinstance(text, tuple):                 # what a command writes for a policy and a source, with one text in it changed
            for part, data in zip(("made.toml", "made.c"), text[1:3]):
                with open(os.path.join(folder, part), "w") as file:
                    file.write(data)
            made = subprocess.run([program, text[0], "made.toml", "made.c"], cwd=folder, stdout=subprocess.PIPE).stdout.decode()
            text = made.replace(text[3], text[4]) if len(text) > 3 else made
        with open(path, "wb") as file:
            file.write(text.encode("utf-8"))
        if text.startswith("#!"):
            os.chmod(path, 0o755)


def same_lines(told, wanted, front):
    """Whether lines are those that are wanted; where `front` is set there may be more of them, and a line that ends with ` ..` is a front."""
    if len(told) < len(wanted) or len(told) > len(wanted) and not front:
        return False
    return all(one == other or other.endswith("..") and one.startswith(other[:-2].rstrip(" ")) for one, other in zip(told, wanted))


def try_row(number, program, folder):
    name, words, files, status, wanted, more = ROWS[number]
    put_files(files, folder, program)
    got, out, err = run(words.split(), folder, more.get("program", program))
    if got != status:
        raise Failed("status %d, not %d" % (got, status), out, err)
    for name_of in more.get("left", ()):
        if not os.path.exists(os.path.join(folder, name_of)):
            raise Failed("%s isn't there" % name_of, out, err)
    for name_of in more.get("gone", ()):
        if os.path.exists(os.path.join(folder, name_of)):
            raise Failed("%s is there" % name_of, out, err)
    if "picture" in more:
        check_picture(more["picture"], out)
        return
    text = out if more.get("out") else err
    lines = text.split("\n")[:-1]
    if not more.get("whole"):
        lines = [line for line in lines if not UNDER.match(line)]
    if not same_lines(lines, wanted, more.get("front")):
        raise Failed("what is told differs", text, "\n".join(wanted))
    if "--format" not in words and words.split(" ")[0] in ("weave", "procs", "explain", "warn", "same", "audit", "reaudit", "world", "values") and status != 2 and "program" not in more and "--help" not in words:
        form = ("json", "sarif")[number % 2]
        check_document(form, ["--format", form] + words.split(), status, folder, program, files)


# -- documents and pictures

# What json-schema.org's schema of SARIF 2.1.0 requires of the objects that are written, by their place.
SARIF_REQUIRED = {"log": ("version", "runs"), "run": ("tool",), "tool": ("driver",), "driver": ("name",), "rule": ("id",), "result": ("message",), "message": ("text",),
                  "location": (), "codeFlow": ("threadFlows",), "threadFlow": ("locations",), "invocation": ("executionSuccessful",)}


def need(thing, kind):
    missing = [key for key in SARIF_REQUIRED[kind] if key not in thing]
    if missing:
        raise Failed("a %s of SARIF has no %s" % (kind, missing), json.dumps(thing), "")


def check_place(location):
    need(location, "location")
    physical = location["physicalLocation"]
    if not isinstance(physical["artifactLocation"]["uri"], str) or " " in physical["artifactLocation"]["uri"]:
        raise Failed("a place of SARIF has no good uri", json.dumps(location), "")
    region = physical.get("region")
    if region and not (region["startLine"] >= 1 and region["startColumn"] >= 1 and region["endColumn"] >= region["startColumn"]):
        raise Failed("a region of SARIF is none", json.dumps(location), "")
    if "message" in location:
        need(location["message"], "message")


def check_sarif(log, status):
    need(log, "log")
    if log["version"] != "2.1.0" or len(log["runs"]) != 1:
        raise Failed("no log of SARIF 2.1.0", json.dumps(log), "")
    one = log["runs"][0]
    need(one, "run")
    need(one["tool"], "tool")
    need(one["tool"]["driver"], "driver")
    known = {each["id"] for each in one["tool"]["driver"]["rules"]}
    for each in one["tool"]["driver"]["rules"]:
        need(each, "rule")
    for each in one["invocations"]:
        need(each, "invocation")
        if each["exitCode"] != status:
            raise Failed("another status in SARIF", json.dumps(each), "")
    for result in one["results"]:
        need(result, "result")
        need(result["message"], "message")
        if result["level"] not in ("none", "note", "warning", "error") or result["ruleId"] not in known:
            raise Failed("a result of SARIF has another level or rule", json.dumps(result), "")
        for location in result.get("locations", []) + result.get("relatedLocations", []):
            check_place(location)
        for flow in result.get("codeFlows", []):
            need(flow, "codeFlow")
            for thread in flow["threadFlows"]:
                need(thread, "threadFlow")
                for step in thread["locations"]:
                    check_place(step["location"])


def fits(value, schema, root):
    """Whether a value is of a schema, by the few words of JSON Schema that messages.schema.json uses."""
    if "$ref" in schema:
        schema = root["definitions"][schema["$ref"].rpartition("/")[2]]
    kinds = {"object": dict, "array": list, "string": str, "integer": int}
    if "type" in schema and not isinstance(value, kinds[schema["type"]]) or "enum" in schema and value not in schema["enum"] or "minimum" in schema and value < schema["minimum"]:
        return False
    if isinstance(value, dict):
        known = schema.get("properties", {})
        return all(key in value for key in schema.get("required", ())) and all(key in known and fits(item, known[key], root) for key, item in value.items())
    return all(fits(item, schema["items"], root) for item in value) if isinstance(value, list) else True


with open(os.path.join(HERE, "messages.schema.json")) as file:
    SCHEMA = json.load(file)


def check_document(form, words, status, folder, program, files):
    for name in os.listdir(folder):
        os.unlink(os.path.join(folder, name))
    put_files(files, folder, program)
    got, out, err = run(words, folder, program)
    if got != status:
        raise Failed("status %d as %s, not %d" % (got, form, status), out, err)
    if "-o" not in words and ("weave" in words or "procs" in words):
        out = err                                   # the woven text, or the strategy, is on standard output
    if status == 7:
        return
    try:
        log = json.loads(out)
    except ValueError:
        raise Failed("no JSON", out, err) from None
    if form == "sarif":
        check_sarif(log, status)
    elif not fits(log, SCHEMA, SCHEMA) or log["status"] != status:
        raise Failed("not of messages.schema.json", out, "")


def check_picture(form, text):
    if form in ("svg", "html"):
        import xml.etree.ElementTree
        svg = text[text.index("<svg"):text.index("</svg>") + 6]
        tree = xml.etree.ElementTree.fromstring(svg)
        width, height = float(tree.get("width")), float(tree.get("height"))
        for each in tree.iter("{http://www.w3.org/2000/svg}text"):
            end = float(each.get("x")) + (0 if each.get("text-anchor") else 6 * len(each.text or ""))
            if end > width + 1 or not 0 < float(each.get("y")) <= height:
                raise Failed("a text stands outside the picture", each.text or "", "")
        if re.search(r"<script|https?://(?!www\.w3\.org/2000/svg)|@import|url\((?!#)", text):
            raise Failed("the picture fetches something", "", "")
    if form == "html" and ("<html" not in text or 'id="L1"' not in text or not re.search(r'href="#L\d+"', text)):
        raise Failed("the page has no source beside the picture", text[:400], "")
    if form == "dot" and not (text.startswith("digraph drawn {") and text.rstrip().endswith("}")):
        raise Failed("no DOT", text[:400], "")
    if form == "mermaid" and not text.startswith("flowchart TD"):
        raise Failed("no Mermaid", text[:400], "")


# -- tools of examples/ with policies that can't be met, the Makefile there, and what is installed

def try_broken(case, program, folder):
    name, before, after, first, part = case
    tool = name.partition(".")[0] + ".c"
    text = example(name)
    if before not in text:
        raise Failed("%s has no %r" % (name, before), "", "")
    put_files({name: text.replace(before, after, 1), tool: example(tool)}, folder, program)
    got, out, err = run(["explain", name, tool], folder, program)
    if got != 1 or out.partition("\n")[0] != first or part not in out:
        raise Failed("status %d, or what is told differs" % got, out + err, first + "\n" + part)



def try_make(program, folder):
    """All tools are built by it; a policy that can't be met ends it and leaves no woven text, a second time too; mended, the tool is built again."""
    work = os.path.join(folder, "examples")
    shutil.copytree(EXAMPLES, work, ignore=shutil.ignore_patterns("build", "__pycache__"))
    tools = [name[:-5] for name in sorted(os.listdir(work)) if name.endswith(".toml") and os.path.exists(os.path.join(work, name[:-5] + ".c"))]
    environment = dict(os.environ, CAPWEAVE=program)
    make = lambda *words: subprocess.run(["make", "-j4", "CFLAGS=-O0 -std=c11", "TELL=%s %s" % (sys.executable, TELL)] + list(words), cwd=work, env=environment, stdout=subprocess.PIPE, stderr=subprocess.STDOUT)
    there = lambda name: os.path.exists(os.path.join(work, "build", name))
    made = make("check")
    if made.returncode or not all(there(name) for name in tools):
        raise Failed("make", made.stdout.decode(), "")
    with open(os.path.join(work, "lines.toml")) as file:
        good = file.read()

    def write(text, time):
        with open(os.path.join(work, "lines.toml"), "w") as file:
            file.write(text)
        os.utime(os.path.join(work, "lines.toml"), (time, time))
    now = os.stat(os.path.join(work, "build", "lines.woven.c")).st_mtime
    write(good.replace('never = ["amb"', 'must = ["in:CAP_READ"]\nnever = ["amb"'), now + 10)
    for turn in range(2):
        made = make("build/lines")
        if made.returncode == 0 or there("lines.woven.c") or not there("lines.woven.c.strategy") or b"'parse must in:CAP_READ' can't be met" not in made.stdout:
            raise Failed("make after a refusal", made.stdout.decode(), "")
    write(good, now + 20)
    made = make("build/lines")
    if made.returncode or there("lines.woven.c.strategy") or not there("lines.woven.c"):
        raise Failed("make after mending", made.stdout.decode(), "")
    return len(tools)


INSTALLED = ("bin/capweave", "bin/capweave-tell", "include/capweave.h", "share/man/man1/capweave.1", "share/man/man1/capweave-tell.1", "share/capweave/capweave.c",
             "share/bash-completion/completions/capweave", "share/bash-completion/completions/capweave-outline", "share/bash-completion/completions/capweave-tell",
             "share/doc/capweave/COMPANION.md", "share/doc/capweave/GUIDE.md", "share/capweave/examples/wc.c", "share/capweave/examples/Makefile",
             "share/capweave/samples/cmp.c")


def try_install(program, folder):
    """Everything is there under DESTDIR and PREFIX, and the companion runs the program that is installed beside it; then all is gone again."""
    environment = dict(os.environ, DESTDIR=os.path.join(folder, "stage"), PREFIX="/opt/capweave", CAPWEAVE=program)
    made = subprocess.run(["sh", os.path.join(ROOT, "install.sh")], env=environment, stdout=subprocess.PIPE, stderr=subprocess.STDOUT)
    root = os.path.join(folder, "stage/opt/capweave")
    missing = [name for name in INSTALLED if not os.path.isfile(os.path.join(root, name))]
    if made.returncode or missing:
        raise Failed("install.sh leaves out %s" % missing, made.stdout.decode(), "")
    environment.pop("CAPWEAVE")
    put_files({"p.toml": NEVER, "s.c": ONE}, folder, program)
    ran = subprocess.run([sys.executable, os.path.join(root, "bin/capweave-tell"), "weave", "-q", "p.toml", "s.c"], cwd=folder, env=environment, stdout=subprocess.PIPE, stderr=subprocess.PIPE)
    if ran.returncode or not ran.stdout.startswith(b"/*cw{*/"):
        raise Failed("what is installed doesn't run", ran.stderr.decode(), "")
    made = subprocess.run(["sh", os.path.join(ROOT, "install.sh"), "--remove"], env=environment, stdout=subprocess.PIPE, stderr=subprocess.STDOUT)
    left = [os.path.join(at_folder, name) for at_folder, _, names in os.walk(root) for name in names]
    if made.returncode or left:
        raise Failed("install.sh --remove leaves %s" % left, made.stdout.decode(), "")
    return len(INSTALLED)


def main():
    words = sys.argv[1:]
    show = "--show" in words
    words = [word for word in words if word != "--show"]
    only = ""
    if "--only" in words:
        place = words.index("--only")
        only = words[place + 1]
        del words[place:place + 2]
    program = os.path.abspath(words[0] if words else os.environ.get("CAPWEAVE") or os.path.join(ROOT, "crates/capweave/out/capweave"))
    if not os.access(program, os.X_OK):
        print("no program %s" % program)
        print("0 passed, 1 failed")
        return 1
    ran = subprocess.run([program, "values"], stdin=subprocess.DEVNULL, stdout=subprocess.DEVNULL, stderr=subprocess.PIPE)
    has_values = b"values" in ran.stderr
    if not has_values:
        print("left out: the rows of `values`, which this capweave doesn't have")
    tests = [(name, lambda folder, number=number: try_row(number, program, folder)) for number, (name, *_) in enumerate(ROWS)
             if has_values or not name.startswith("values")]
    if shutil.which("make") and shutil.which("cc"):
        tests.append(("Makefile", lambda folder: try_make(program, folder)))
    else:
        print("left out: the Makefile, since make or cc isn't here")
    there = [case for case in BROKEN if os.path.exists(os.path.join(EXAMPLES, case[0]))]
    tests += [("broken: " + case[3], lambda folder, case=case: try_broken(case, program, folder)) for case in there]
    tests.append(("install.sh", lambda folder: try_install(program, folder)))

    def one(test):
        """What is wrong with a test, or nothing."""
        folder = tempfile.mkdtemp(prefix="rows-")
        try:
            test[1](folder)
            return None
        except Failed as fault:
            return "\n".join(str(part) for part in fault.args)
        except Exception as fault:              # a fault of the table itself is told like any other
            return repr(fault)
        finally:
            shutil.rmtree(folder)
    tests = [test for test in tests if only in test[0]]
    wrong = [one(test) for test in tests]
    for (name, _), what in zip(tests, wrong):
        if what is not None or show:
            print("failed: %s: %s" % (name, what) if what is not None else "%s: as it has to be" % name)
    failed = sum(what is not None for what in wrong)
    passed = len(wrong) - failed
    print("%d passed, %d failed" % (passed, failed))
    return 1 if failed else 0


if __name__ == "__main__":
    sys.exit(main())
