#!/usr/bin/env python3
"""Runs a table of small files and commands on the built program, and compares statuses, texts and lines with what they have to be.

    python3 examples/rows.py [CAPWEAVE]

CAPWEAVE is the program; without it that of the environment's variable CAPWEAVE is taken, and else crates/capweave/out/capweave. It takes a second. Needs Python 3.8 and no package.
"""
import os
import subprocess
import sys
import tempfile

from value_rows import ROWS as VALUE_ROWS, Woven


def at(label, **tests):
    return '[[at]]\nlabel = "%s"\n' % label + "".join("%s = [%s]\n" % (word, ", ".join('"%s"' % test for test in some.split())) for word, some in tests.items())


def policy(*parts, head="", version=1):
    return "format = %d\n" % version + head + "".join(parts)


def descriptor(name, *rights):
    return '[[descriptor]]\nname = "%s"\n' % name + ("rights = [%s]\n" % ", ".join('"%s"' % right for right in rights) if rights else "")


def limit(name, *rights):
    return '[[limit]]\ndescriptor = "%s"\nkeep = [%s]\n' % (name, ", ".join('"%s"' % right for right in rights))


def rule(bad, name="r"):
    return '[[rule]]\nname = "%s"\nbad = "%s"\n' % (name, bad)


ONE = "int main(void){a:;return 0;}"
TWO = "int main(void){a:;b:;return 0;}"
NEVER = policy(at("a", never="amb"))
BOTH = policy(at("a", never="amb"), at("b", must="amb"))
REFUSED = policy(at("a", never="amb"), head='refusable = ["enter"]\n')
STOPPED = policy(at("a", never="amb"), head='refusable = ["enter"]\non_refusal = "stop"\n')
CALLED = "int f(int x){a:;return x;}\nint main(void){int y;y=f(1);b:;return 0;}"
SPLIT = policy(at("a", never="amb"), at("b", must="amb"), head='split = ["f"]\n')
TWICE = "void f(int x){l:;}int main(void){f(1);m:;k:;f(2);return 0;}"
PROMISES = policy(at("m", must="amb"), at("k", never="amb"))
LEAVES = "void f(int x){a:;}int main(void){f(1);b:;return 0;}"
FORM = "void f(int x){a:;}int main(void){{if(!fork()){f(1);_exit(0);for(;;);}}b:;return 0;}"


def detaching(*parts, names="f", more=""):
    return policy(*parts, head=more + "detached = [%s]\n" % ", ".join('"%s"' % name for name in names.split()), version=2)


LEFT = detaching(at("a", never="amb"), at("b", must="amb"))
TORN = detaching(at("a", never="amb", must="amb"))
READ_WRITE = descriptor("0", "CAP_READ", "CAP_WRITE")
KEEPS = limit("0", "CAP_READ") + limit("0", "CAP_WRITE")

WOVEN_ONE = """/*cw{*/
#include "capweave.h"
#define CW_LIMITS(X)
CW_TABLE(1,4,0)
CW_MEM(0,0,0xf)
CW_MEM(1,1,0xf)
CW_MEM(2,3,0xf)
CW_LIVE(0,0)
CW_LIVE(2,0)
CW_LIVE(3,0)
CW_LIVE(4,0)
CW_LIVE(5,1)
CW_LIVE(6,2)
CW_LIVE(7,2)
CW_LIVE(8,2)
CW_TRY(1,0,0,1,CW_NONE)
CW_AT(1,1,2)
CW_DONE
/*}cw*/int main(void){/*cw{*/CW_ENTRY(0);/*}cw*/a:/*cw{*/CW_LABEL(1)/*}cw*/;return 0;}"""
AMBIENT = policy(at("a", must="amb"))
VIOLATES = "capweave audit 1\nstates 4\nviolates 1\non\nin 0 0 0\nat 2 0 0\nend\n"
MEETS = "capweave audit 1\nstates 4\nmeets\nin 0 0 0\nat 2 0 0\nat 5 0 1\nat 6 2 2\nat 7 2 3\nat 8 2 4\nend\n"
BEATEN_TWO = """capweave strategy 1
states 4
0 5 0 0x0 bad
1 9 3 0x0 bad
2 8 3 0x0 grant 1
3 7 3 0x0 both 1 2
4 6 3 0x0 on 3
5 5 1 0x0 on 4
6 4 0 0x0 grant 5
7 4 1 0x0 grant 5
8 3 0 0x0 both 0 6
9 3 1 0x0 both 5 7
10 2 0 0x0 on 8
11 2 1 0x0 on 9
12 1 0 0x0 grant 11
13 0 0 0x0 both 10 12
end
"""
BEATEN_ONE = """capweave strategy 1
states 4
0 5 0 0x0 bad
1 4 0 0x0 refuse 0
2 3 0 0x0 both 0 1
3 2 0 0x0 on 2
4 1 0 0x0 refuse 3
5 0 0 0x0 both 3 4
end
"""


def changed(text, before, after):
    assert before in text
    return text.replace(before, after, 1)


class Has(str):
    """Lines that have to stand in the output, in this order."""


# what is shown; the words; the files by their names; the status; the output; the line on standard error
WOVEN_LEAVES = """/*cw{*/
#include "capweave.h"
#define CW_LIMITS(X)
CW_TABLE(2,4,0)
CW_MEM(0,0,0xf)
CW_MEM(1,1,0xf)
CW_MEM(2,2,0xf)
CW_MEM(3,3,0xf)
CW_LIVE(0,0)
CW_LIVE(2,0)
CW_LIVE(3,0)
CW_LIVE(4,0)
CW_LIVE(5,1)
CW_LIVE(6,3)
CW_LIVE(7,3)
CW_LIVE(8,0)
CW_LIVE(10,0)
CW_LIVE(11,0)
CW_LIVE(12,0)
CW_LIVE(14,0)
CW_LIVE(15,3)
CW_LIVE(16,3)
CW_LIVE(17,3)
CW_LIVE(18,0)
CW_LIVE(20,0)
CW_LIVE(21,2)
CW_LIVE(22,2)
CW_LIVE(23,2)
CW_TRY(1,0,0,1,CW_NONE)
CW_AT(1,1,3)
CW_AT(4,0,2)
CW_INTO(3,0,0,0)
CW_BACK(3,0,0,3,3)
CW_DONE
/*}cw*/void f(int x){/*cw{*/CW_ENTRY(0);/*}cw*/a:/*cw{*/CW_LABEL(1)/*}cw*/;}int main(void){/*cw{*/CW_ENTRY(2);/*}cw*/{if(!fork()){/*cw{*/CW_CALL(3)/*}cw*/f(1);_exit(0);for(;;);}}b:/*cw{*/CW_LABEL(4)/*}cw*/;return 0;}"""

ROWS = [
    ("a program without rules", "weave p s", {"p": "format = 1\n", "s": "int main(void){return 0;}"}, 0, Has("CW_TABLE(1,2,0)\nCW_MEM(0,0,0x3)\nCW_LIVE(4,0)\nCW_DONE"), ""),
    ("enter at the label and not at the entry", "weave p s", {"p": NEVER, "s": ONE}, 0, WOVEN_ONE, ""),
    ("both can't be had", "weave p s", {"p": BOTH, "s": TWO}, 1, BEATEN_TWO, ""),
    ("a strategy is verified", "refute p s t", {"p": BOTH, "s": TWO, "t": BEATEN_TWO}, 0, "yes\n", ""),
    ("a row that names no smaller row", "refute p s t", {"p": BOTH, "s": TWO, "t": changed(BEATEN_TWO, "10 12\n", "10 13\n")}, 1, "row 13 condition 1\n", ""),
    ("a strategy without rows", "refute p s t", {"p": BOTH, "s": TWO, "t": "capweave strategy 1\nstates 4\nend\n"}, 1, "row 0 condition 8\n", ""),
    ("a strategy without its end", "refute p s t", {"p": BOTH, "s": TWO, "t": BEATEN_TWO[:-4]}, 9, "", "strategy: line 17\n"),
    ("a leading zero", "refute p s t", {"p": REFUSED, "s": ONE, "t": changed(BEATEN_ONE, "0x0 bad", "0x00 bad")}, 9, "", "strategy: line 3\n"),
    ("a row numbered twice", "refute p s t", {"p": REFUSED, "s": ONE, "t": changed(BEATEN_ONE, "\n1 4", "\n2 4")}, 9, "", "strategy: order 4\n"),
    ("a source that violates", "audit p s", {"p": NEVER, "s": ONE}, 1, VIOLATES, ""),
    ("a source that meets its policy", "audit p s", {"p": AMBIENT, "s": ONE}, 0, MEETS, ""),
    ("a violation behind recursion", "audit p s", {"p": policy(at("u", never="amb"), at("d", must="amb")), "s": "void f(int n){if(n){f(n-1);u:;}else{d:;}}int main(void){f(9);return 0;}"}, 1, Has("violates 10\nin 0 0 2\nat 2 0 0\nin 1 0 0\nat 23 2 8\nend"), ""),
    ("an audit is verified", "reaudit p s t", {"p": NEVER, "s": ONE, "t": VIOLATES}, 0, "yes\n", ""),
    ("an audit of a source that meets its policy", "reaudit p s t", {"p": AMBIENT, "s": ONE, "t": MEETS}, 0, "yes\n", ""),
    ("a row is missing", "reaudit p s t", {"p": AMBIENT, "s": ONE, "t": changed(MEETS, "at 8 2 4\n", "")}, 1, "group 0 row 3 condition 4\n", ""),
    ("another move", "reaudit p s t", {"p": NEVER, "s": ONE, "t": changed(VIOLATES, "1\non\n", "1\nleft\n")}, 1, "group 1 row 0 condition 6\n", ""),
    ("an audit without its end", "reaudit p s t", {"p": AMBIENT, "s": ONE, "t": MEETS[:-4]}, 9, "", "audit: line 10\n"),
    ("enter may be refused", "weave p s", {"p": REFUSED, "s": ONE}, 1, BEATEN_ONE, ""),
    ("and the program stops then", "weave p s", {"p": STOPPED, "s": ONE}, 0, WOVEN_ONE, ""),
    ("a woven text is verified", "check p t", {"p": NEVER, "t": WOVEN_ONE}, 0, "yes\n", ""),
    ("a try is missing", "check p t", {"p": NEVER, "t": changed(WOVEN_ONE, "CW_TRY(1,0,0,1,CW_NONE)\n", "")}, 1, "live 2 condition 4\n", ""),
    ("another memory after a label", "check p t", {"p": NEVER, "t": changed(WOVEN_ONE, "CW_AT(1,1,2)", "CW_AT(1,1,1)")}, 1, "live 4 condition 6\n", ""),
    ("another number of states", "check p t", {"p": NEVER, "t": changed(WOVEN_ONE, "CW_TABLE(1,4,0)", "CW_TABLE(1,5,0)")}, 1, "mems 0 condition 1\n", ""),
    ("a mark with another spelling", "check p t", {"p": NEVER, "t": changed(WOVEN_ONE, "CW_ENTRY(0);", "CW_ENTRX(0);")}, 9, "", "woven: mark %d\n" % WOVEN_ONE.index("/*cw{*/CW_ENTRY")),
    ("a mark behind its statement", "check p t", {"p": NEVER, "t": changed(WOVEN_ONE, "/*cw{*/CW_LABEL(1)/*}cw*/;", ";/*cw{*/CW_LABEL(1)/*}cw*/")}, 9, "", "woven: misplaced 1\n"),
    ("rows out of order", "check p t", {"p": NEVER, "t": changed(WOVEN_ONE, "CW_LIVE(0,0)\nCW_LIVE(2,0)", "CW_LIVE(2,0)\nCW_LIVE(0,0)")}, 9, "", "woven: order 8\n"),
    ("an empty text", "check p t", {"p": NEVER, "t": ""}, 9, "", "woven: mark 0\n"),
    ("a call in a process of its own", "weave p s", {"p": SPLIT, "s": CALLED}, 0, Has("CW_TRY(1,0,0,1,CW_NONE)\nCW_TRY(3,1,0,0,CW_NONE)\nCW_INTO(3,1,0,0)\nCW_BACK(3,1,0,3,2)"), ""),
    ("a split that may be refused", "weave p s", {"p": policy(at("a", never="amb"), at("b", must="amb"), head='refusable = ["split"]\nsplit = ["f"]\n'), "s": CALLED}, 1, Has("capweave strategy 1"), ""),
    ("a function that may not be split", "weave p s", {"p": policy(head='split = ["f"]\n'), "s": "int g;void f(int x){g=x;}int main(void){f(1);return 0;}"}, 4, "", "policy: not splittable f 1:21\n"),
    ("a function that isn't there", "weave p s", {"p": policy(head='split = ["g"]\n'), "s": ONE}, 4, "", "policy: no function g\n"),
    ("a loop that no placement can serve", "weave p s", {"p": policy(at("o", must="amb"), at("p", never="amb")), "s": "int main(void){while(c){o:;p:;}return 0;}"}, 1, Has("capweave strategy 1"), ""),
    ("recursion", "weave p s", {"p": policy(at("u", never="amb"), at("d", must="amb")), "s": "void f(int n){if(n){f(n-1);u:;}else{d:;}}int main(void){f(9);return 0;}"}, 0, Has("CW_TRY(2,0,1,2,CW_NONE)\nCW_BACK(1,0,0,2,1)\nCW_BACK(1,0,0,3,2)\nCW_BACK(5,0,0,2,1)"), ""),
    ("one function under two promises", "weave p s", {"p": PROMISES, "s": TWICE}, 0, Has("CW_TABLE(1,4,1)\nCW_MEM(0,0,0x5)\nCW_MEM(1,0,0xf)\nCW_TRY(5,0,3,4,CW_NONE)\nCW_INTO(3,0,1,0)\nCW_BACK(6,0,4,3,4)"), ""),
    ("a rule over two labels", "weave p s", {"p": policy(rule(".* t .* z[amb]")), "s": "void g(int x){if(x){t:;}}int main(void){g(1);z:;return 0;}"}, 0, Has("CW_TABLE(1,10,"), ""),
    ("two limits of which each excludes the other", "weave p s", {"p": policy(READ_WRITE, KEEPS, at("a", never="0:CAP_READ 0:CAP_WRITE")), "s": ONE}, 1, Has("capweave strategy 1"), ""),
    ("and a third that keeps nothing", "weave p s", {"p": policy(READ_WRITE, KEEPS, limit("0"), at("a", never="0:CAP_READ 0:CAP_WRITE")), "s": ONE}, 0, Has("CW_TABLE(1,16,1)\nCW_TRY(1,2,1,0,CW_NONE)\nCW_AT(1,0,2)"), ""),
    ("an open that may fail", "weave p s", {"p": policy(descriptor("fd"), limit("fd", "CAP_READ"), at("a", never="fd:CAP_WRITE")), "s": "int fd; int main(void){fd=open_it();a:;return 0;}"}, 0, Has("CW_TRY(2,0,2,1,CW_NONE)\nCW_AT(2,0,3)\nCW_AT(2,1,4)\nCW_OPENED(1,0,2,0)"), ""),
    ("product states, format 1", "weave p s", {"p": policy(descriptor("0", "CAP_READ", "CAP_WRITE", "CAP_SEEK"), KEEPS, limit("0"), limit("0", "CAP_READ", "CAP_WRITE"), rule(" ".join("a" * 63))), "s": TWO}, 5, "", "limit: product states\n"),
    ("product states, format 2", "weave p s", {"p": policy(descriptor("0", "CAP_READ", "CAP_WRITE", "CAP_SEEK"), KEEPS, limit("0"), limit("0", "CAP_READ", "CAP_WRITE"), rule(" ".join("a" * 63)), version=2), "s": TWO}, 0, Has("CW_TABLE(2,640,1)\nCW_MEM(0,4,0-639)"), ""),
    ("a marker in the source", "weave p s", {"p": "format = 1\n", "s": "/*cw{*/int main(void){return 0;}"}, 3, "", "source 1:3: marker\n"),
    ("a source that ends early", "weave p s", {"p": "format = 1\n", "s": "int main(void){"}, 3, "", "source 1:16: syntax\n"),
    ("the empty source", "weave p s", {"p": "format = 1\n", "s": ""}, 3, "", "source: no main\n"),
    ("main is called", "weave p s", {"p": "format = 1\n", "s": "int main(void){main();return 0;}"}, 3, "", "source 1:16: main called\n"),
    ("deep parentheses that are no expression", "weave p s", {"p": "format = 1\n", "s": "int main(void){" + "(" * 100000}, 3, "", "source 1:100016: syntax\n"),
    ("deep parentheses", "weave p s", {"p": "format = 1\n", "s": "int main(void){" + "(" * 100000 + "c" + ")" * 100000 + ";}"}, 5, "", "limit: nesting\n"),
    ("a label that isn't there", "weave p s", {"p": policy(at("z", never="amb")), "s": ONE}, 4, "", "policy: no label z\n"),
    ("a policy without format", "weave p s", {"p": "", "s": ONE}, 4, "", "policy: missing format\n"),
    ("a policy of another format", "weave p s", {"p": "format = 3\n", "s": ONE}, 4, "", "policy: kind format\n"),
    ("an expression that goes on nowhere", "weave p s", {"p": policy(rule("a[")), "s": ONE}, 4, "", "policy: regex rule[0] at 2\n"),
    ("a limit of no descriptor", "weave p s", {"p": policy(limit("fd")), "s": ONE}, 4, "", "policy: unknown limit[0].descriptor\n"),
    ("another answer to a refusal", "weave p s", {"p": policy(head='on_refusal = "halt"\n'), "s": ONE}, 4, "", "policy: kind on_refusal\n"),
    ("a policy that is too long", "weave p s", {"p": " " * 65537, "s": ONE}, 5, "", "limit: policy bytes\n"),
    ("a file that isn't there", "weave p absent", {"p": "format = 1\n"}, 6, "", "read: absent\n"),
    ("too few words", "weave p", {}, 2, "", "usage: capweave weave POLICY SOURCE\n"),
    ("no command", "vary p s", {}, 2, "", "usage: capweave COMMAND ARGUMENTS\n"),
    ("the points of a program", "graph s", {"s": ONE}, 0, "points 5\nfunction main 0 4\n0 main entry -> 1\n1 main label a -> 2\n2 main step -> 3\n3 main step -> 4\n4 main exit\n", ""),
    ("a run", "run p t tape", {"p": NEVER, "t": WOVEN_ONE, "tape": "on grant on on on on"}, 0, "try 1 enter granted\nlabel a cap\nended\n", ""),
    ("a tape that ends early", "run p t tape", {"p": NEVER, "t": WOVEN_ONE, "tape": "on grant"}, 1, "try 1 enter granted\nlabel a cap\ntape spent\n", ""),
    ("a word that is no move", "run p t tape", {"p": NEVER, "t": WOVEN_ONE, "tape": "on refuse"}, 1, "bad move 1\n", ""),
    ("a word of no tape", "run p t tape", {"p": NEVER, "t": WOVEN_ONE, "tape": "on grnat"}, 9, "", "tape: line 1\n"),
    ("a run that stops", "run p t tape", {"p": STOPPED, "t": WOVEN_ONE, "tape": "on refuse"}, 0, "try 1 enter refused\nstop 1\nended\n", ""),
    ("a play", "play p s t tape", {"p": REFUSED, "s": ONE, "t": BEATEN_ONE, "tape": "try try"}, 0, "try 0 enter refused\ntry 1 enter refused\nlabel a amb\nviolation a never amb\n", ""),
    ("a play that ends early", "play p s t tape", {"p": REFUSED, "s": ONE, "t": BEATEN_ONE, "tape": "skip"}, 1, "tape spent\n", ""),
    ("a call that isn't waited for", "procs p s", {"p": LEFT, "s": LEAVES}, 0, Has("CW_TRY(1,0,0,1,CW_NONE)\nCW_AT(1,1,3)\nCW_AT(4,0,2)\nCW_INTO(3,0,0,0)\nCW_BACK(3,0,0,3,3)\n{if(!fork()){\nf(1);_exit(0);for(;;);}}b:"), ""),
    ("such a call for weave", "weave p s", {"p": LEFT, "s": LEAVES}, 4, "", "policy: detached\n"),
    ("the same call waited for", "weave p s", {"p": policy(at("a", never="amb"), at("b", must="amb"), version=2), "s": LEAVES}, 1, Has("capweave strategy 2"), ""),
    ("a form that can't meet its policy", "procs p s", {"p": TORN, "s": LEAVES}, 1, Has("capweave strategy 2\nstates 4\n0 5 0 0x0 bad\n1 5 1 0x0 bad\nend"), ""),
    ("a form without detached calls", "procs p s", {"p": NEVER, "s": ONE}, 0, WOVEN_ONE, ""),
    ("main can't be detached", "procs p s", {"p": detaching(names="main"), "s": LEAVES}, 4, "", "policy: no function main\n"),
    ("detached and split", "procs p s", {"p": detaching(more='split = ["f"]\n'), "s": LEAVES}, 4, "", "policy: detached f\n"),
    ("a name of the form in the source", "procs p s", {"p": LEFT, "s": changed(LEAVES, "b:;", "b:;fork();")}, 3, "", "source 1:42: fork name\n"),
    ("a detached call's result", "procs p s", {"p": LEFT, "s": "int f(int x){a:;return x;}int main(void){int y;y=f(1);b:;return 0;}"}, 3, "", "source 1:50: detached result\n"),
    ("a function that isn't there, before a label", "procs p s", {"p": detaching(at("z", never="amb"), names="h"), "s": LEAVES}, 4, "", "policy: no function h\n"),
    ("places are the form's", "procs p s", {"p": detaching(more='split = ["g"]\n'), "s": "int q;void f(int x){}void g(int x){f(x);q=1;}int main(void){g(1);return 0;}"}, 4, "", "policy: not splittable g 1:73\n"),
    ("a form that nests too deep", "procs p s", {"p": LEFT, "s": changed(LEAVES, "f(1);", "{" * 60 + "f(1);" + "}" * 60)}, 5, "", "limit: nesting\n"),
    ("a form that is too long", "procs p s", {"p": LEFT, "s": changed(LEAVES, "f(1);", " " * 262062 + "f(1);")}, 5, "", "limit: source bytes\n"),
    ("a form of too many points", "procs p s", {"p": LEFT, "s": changed(LEAVES, "f(1);", "f(1);" * 1640)}, 5, "", "limit: points\n"),
    ("the form's strategy is verified", "refute p s t", {"p": TORN, "s": FORM, "t": "capweave strategy 2\nstates 4\nend\n"}, 1, "row 0 condition 8\n", ""),
    ("no function, before one that is split", "procs p s", {"p": detaching(names="f h", more='split = ["f"]\n'), "s": LEAVES}, 4, "", "policy: no function h\n"),
    ("a detached name that is split, before a name of the form", "procs p s", {"p": detaching(more='split = ["f"]\n'), "s": changed(LEAVES, "b:;", "fork();b:;")}, 4, "", "policy: detached f\n"),
    ("a name of the form, before a result", "procs p s", {"p": LEFT, "s": "int f(int x){a:;return x;}int main(void){int y;y=f(1);fork();b:;return 0;}"}, 3, "", "source 1:55: fork name\n"),
    ("a name of the form, before a label", "procs p s", {"p": detaching(at("z", never="amb")), "s": changed(LEAVES, "b:;", "_exit(0);b:;")}, 3, "", "source 1:39: fork name\n"),
    ("a result, before a form that is too long", "procs p s", {"p": LEFT, "s": "int f(int x){a:;return x;}int main(void){int y;y=f(1);f(2);b:;" + " " * 262062 + "return 0;}"}, 3, "", "source 1:50: detached result\n"),
    ("a form that is too long, before one that nests too deep", "procs p s", {"p": LEFT, "s": changed(LEAVES, "f(1);", " " * 262000 + "{" * 60 + "f(1);" + "}" * 60)}, 5, "", "limit: source bytes\n"),
    ("a form that is too long, before a label", "procs p s", {"p": detaching(at("z", never="amb")), "s": changed(LEAVES, "f(1);", " " * 262062 + "f(1);")}, 5, "", "limit: source bytes\n"),
    ("a source that isn't read, before its form", "procs p s", {"p": detaching(names="h"), "s": changed(LEAVES, "b:;", "fork(;b:;")}, 3, "", "source 1:44: syntax\n"),
    ("a descriptor's rule, before a form", "procs p s", {"p": detaching(descriptor("in"), names="h"), "s": LEAVES}, 3, "", "source: no variable in\n"),
    ("a form that nests as deep as may be", "procs p s", {"p": detaching(), "s": changed(LEAVES, "f(1);", "{" * 59 + "f(1);" + "}" * 59)}, 0, Has("CW_DONE\n{" + "{" * 58), ""),
    ("a form as long as may be", "procs p s", {"p": detaching(), "s": changed(LEAVES, "f(1);", " " * 262061 + "f(1);")}, 0, Has("CW_DONE\n {if(!fork()){/*cw{*/CW_CALL(3)/*}cw*/f(1);_exit(0);for(;;);}}b:"), ""),
    ("a form of as many points as may be", "procs p s", {"p": detaching(), "s": "void f(int x){}int main(void){" + "f(1);" * 1637 + "return 0;}"}, 0, Has("CW_DONE"), ""),
    ("a form of one call more", "procs p s", {"p": detaching(), "s": "void f(int x){}int main(void){" + "f(1);" * 1638 + "return 0;}"}, 5, "", "limit: points\n"),
    ("a call as an arm, and one behind its else", "procs p s", {"p": detaching(), "s": "int c;void f(int x){}int main(void){if(c)f(1);else f(2);return 0;}"}, 0,
     Has("if(c){if(!fork()){/*cw{*/CW_CALL(2)/*}cw*/f(1);_exit(0);for(;;);}}else {if(!fork()){/*cw{*/CW_CALL(3)/*}cw*/f(2);_exit(0);for(;;);}}return 0;"), ""),
    ("a labelled call in a loop", "procs p s", {"p": detaching(), "s": "int c;void f(int x){}int main(void){while(c)a:f(1);return 0;}"}, 0, Has("while(c)a:/*cw{*/CW_LABEL(2)/*}cw*/{if(!fork()){/*cw{*/CW_CALL(3)/*}cw*/f(1);_exit(0);for(;;);}}return 0;"), ""),
    ("processes step by step", "world p t steps", {"p": LEFT, "t": WOVEN_LEAVES, "steps": "0 on\n0 fork\n1 on\n1 on\n1 grant\n"}, 0, "0 fork 1\n0 label b amb\n1 call f\n1 try 1 enter granted\n1 label a cap\ndone 2\n", ""),
    ("no steps", "world p t steps", {"p": LEFT, "t": WOVEN_LEAVES, "steps": ""}, 0, "done 1\n", ""),
    ("a step of no process", "world p t steps", {"p": LEFT, "t": WOVEN_LEAVES, "steps": "1 on\n"}, 1, "bad step 0\n", ""),
    ("a fork goes neither way", "world p t steps", {"p": LEFT, "t": WOVEN_LEAVES, "steps": "0 on\n0 left\n"}, 1, "bad step 1\n", ""),
    ("a line of no steps", "world p t steps", {"p": LEFT, "t": WOVEN_LEAVES, "steps": "0 on"}, 9, "", "steps: line 1\n"),
    ("values with too few words", "values p t", {}, 2, "", "usage: capweave values POLICY WOVEN ANSWERS\n"),
    ("values of a table that fails a condition", "values p t answers", {"p": NEVER, "t": changed(WOVEN_ONE, "CW_AT(1,1,2)\n", ""), "answers": "capweave answers 1\nend\n"}, 1, "live 4 condition 6\n", ""),
    ("answers before the policy fits", "values p t answers", {"p": policy(at("z", never="amb")), "t": WOVEN_ONE, "answers": ""}, 9, "", "answers: line 1\n"),
    ("procs with too few words", "procs p", {}, 2, "", "usage: capweave procs POLICY SOURCE\n"),
    ("a sample", "sample 200", {}, 0, "sample 200\npoints 1206\npositions 2418\nstates 4\ncontexts 601\ncells 28896\nrows 2832\nwoven\n", ""),
    ("no sample", "sample 0", {}, 2, "", "usage: capweave sample N\n"),
    ("a sample past the last", "sample 401", {}, 2, "", "usage: capweave sample N\n"),
    ("a number with a leading zero", "sample 01", {}, 2, "", "usage: capweave sample N\n"),
]


def woven(program, folder, by, source):
    """What the program weaves of a source by a policy."""
    for file, text in (("policy", by), ("source", source)):
        with open(os.path.join(folder, file), "w", encoding="ascii") as opened:
            opened.write(text)
    return subprocess.run([program, "weave", "policy", "source"], cwd=folder, capture_output=True, text=True, check=True).stdout


def fits(out, wanted):
    if not isinstance(wanted, Has):
        return out == wanted
    place = 0
    for line in wanted.split("\n"):
        place = out.find(line, place)
        if place < 0:
            return False
    return True


def main():
    program = os.path.abspath(sys.argv[1] if len(sys.argv) > 1 else os.environ.get("CAPWEAVE") or os.path.join(os.path.dirname(__file__), "../crates/capweave/out/capweave"))
    wrong = 0
    rows = ROWS + VALUE_ROWS
    for name, words, files, status, out, note in rows:
        with tempfile.TemporaryDirectory() as folder:
            for file, text in files.items():
                if isinstance(text, Woven):
                    text = woven(program, folder, files["p"], text)
                with open(os.path.join(folder, file), "w", encoding="ascii") as opened:
                    opened.write(text)
            run = subprocess.run([program] + words.split(" "), cwd=folder, capture_output=True, text=True)
        if run.returncode != status or not fits(run.stdout, out) or run.stderr != note:
            wrong += 1
            print("wrong: %s: %s gives %d %r %r" % (name, words, run.returncode, run.stdout[-200:], run.stderr))
    print("%d rows, %d wrong" % (len(rows), wrong))
    return 1 if wrong else 0


if __name__ == "__main__":
    sys.exit(main())
