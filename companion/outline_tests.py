#!/usr/bin/env python3
"""Tests of capweave-outline.

    python3 companion/outline_tests.py            the short form, under a minute
    python3 companion/outline_tests.py --long     1,000 programs of csmith, 1,000 of random flow, 1,000 pairs, a file of 5,000 lines in two seconds
    python3 companion/outline_tests.py --only PART ..   parts by name (below), in the short form

Skips with a word where clang isn't there, and what needs it where `capweave` or csmith aren't. The last line is `outline: N passed, 0 failed`.
"""
import concurrent.futures
import contextlib
import gc
import glob
import io
import json
import os
import random
import re
import shutil
import subprocess
import sys
import tempfile
import threading
import time

HERE = os.path.dirname(os.path.abspath(__file__))
EXAMPLES = os.path.join(HERE, "..", "examples")
SCRIPT = os.path.join(HERE, "capweave-outline")
CSMITH = ["/usr/include/csmith", "/usr/local/include/csmith"]
passed, failed = 0, []


def ran(words, folder, feed=b"", limit=600, **more):
    return subprocess.run(words, cwd=folder, input=feed, stdout=subprocess.PIPE, stderr=subprocess.PIPE, timeout=limit, **more)


def outline(words, folder):
    return ran([sys.executable, SCRIPT] + words, folder)


def told(good, what, detail=""):
    global passed
    if good:
        passed += 1
    else:
        failed.append(what)
        print("failed: %s %s" % (what, detail))
    return good


def put(folder, name, text):
    with open(os.path.join(folder, name), "w") as file:
        file.write(text)


def standin_flags():
    """The flags of the stand-in: the one that enforces where the header has one and this system can."""
    with open(os.path.join(EXAMPLES, "capweave.c")) as file:
        enforces = "CW_ENFORCE" in file.read() and sys.platform.startswith("linux")
    return ["-DCW_STANDIN"] + (["-DCW_ENFORCE"] if enforces else [])


def compiled(folder, source, program, flags=(), woven=False, enforce=False):
    words = [os.environ.get("CC", "cc"), "-w", "-O0", "-o", program, source] + list(flags)
    if woven:
        words += ["-I" + EXAMPLES, os.path.join(EXAMPLES, "capweave.c")] + (standin_flags() if enforce else ["-DCW_STANDIN"])
    return ran(words, folder)


# ---------------------------------------------------------------------------------------------------------------------------------------
# Random flow: nested loops, switches and jumps over labels, opens, closes and calls, which csmith hasn't


class Flow:
    def __init__(self, seed):
        self.random = random.Random(seed)
        self.label = 0
        self.count = self.random.randint(1, 4)
        self.lines = ["#include <stdio.h>", "#include <fcntl.h>", "#include <unistd.h>", "#include <stdlib.h>", "static int fd = -1;", "static int gd = -1;", "static int fd_gone, gd_gone;",
                      "static unsigned long seed = %dUL;" % self.random.randint(1, 1 << 30), "static int fuel = 300;",
                      "static int bit(int n) { seed = seed * 6364136223846793005UL + 1442695040888963407UL; if (--fuel < 0) exit(0); return (seed >> 33) % n; }"]
        bodies = []
        for number in range(self.count):
            bodies.append(["static int f%d(int a, long b)" % number, "{"] + self.block(1, number, None, self.random.randint(2, 5)) + ["    return a + (int)b;", "}"])
        for number in range(self.count):
            self.lines.append("static int f%d(int a, long b);" % number)
        for body in bodies:
            self.lines += body
        self.lines += ["int main(void)", "{", "    int r = 0;", "start:", "    puts(\"start\");"]
        self.lines += ["    r = f0(1, 2);", "done:", "    printf(\"%d\\n\", r);", "    return 0;", "}"]

    # `bit` is a function that the file defines: conditions read a variable that it filled
    def text(self):
        return "\n".join(self.lines) + "\n"

    def block(self, depth, number, inside, length):
        lines = []
        for _ in range(length):
            lines += self.statement(depth, number, inside)
        return lines

    def statement(self, depth, number, inside):
        pad = "    " * depth
        inside = inside or {}
        choice = self.random.random()
        if depth > 4 or choice < 0.30 + 0.13 * depth:
            kinds = ["put", "put", "label", "call", "open", "close", "return"]
            if inside.get("break"):
                kinds += ["break", "break"]
            if inside.get("continue"):
                kinds += ["continue"]
            kind = self.random.choice(kinds)
            if kind == "put":
                return [pad + "printf(\"%d\\n\");" % self.random.randint(0, 99)]
            if kind == "label":
                self.label += 1
                return [pad + "l%d:" % self.label, pad + "putchar('%s');" % self.random.choice("abc")]
            if kind == "call":
                if self.count == 1 or self.random.random() < 0.4:
                    return [pad + "a += 1;"]
                # only forward, so that the run ends
                return [pad + "a = f%d(a, b);" % self.random.randint(number + 1, self.count - 1)] if number + 1 < self.count else [pad + "(void)a;"]
            if kind == "open":
                name = self.random.choice(["fd", "gd"])
                return [pad + "if (%s < 0)" % name, pad + "    %s = open(\"/dev/null\", O_RDONLY);" % name]
            if kind == "close":
                name = self.random.choice(["fd", "gd"])
                return [pad + "if (%s >= 0 && !%s_gone) {" % (name, name), pad + "    %s_gone = 1;" % name, pad + "    close(%s);" % name, pad + "}"]
            if kind == "return":
                return [pad + "if (b > 2) return a;"]
            return [pad + self.random.choice(["", "if (b & 1) "]) + kind + ";"]
        bit = pad + "b = rand() %% %d;" % self.random.randint(2, 5)
        if choice < 0.50 + 0.10 * depth:
            lines = [bit, pad + "if (b) {"] + self.block(depth + 1, number, inside, self.random.randint(0, 3)) + [pad + "}"]
            if self.random.random() < 0.5:
                lines[-1] += " else {"
                lines += self.block(depth + 1, number, inside, self.random.randint(0, 3)) + [pad + "}"]
            return lines
        if choice < 0.65 + 0.07 * depth:
            form = self.random.randint(0, 3)
            within = {"break": True, "continue": True}
            body = self.block(depth + 1, number, within, self.random.randint(1, 3))
            tick = pad + "    if (--fuel < 0) exit(0);"
            if form == 0:
                return [pad + "while (rand() % 3) {", tick] + body + [pad + "}"]
            if form == 1:
                return [pad + "do {", tick] + body + [pad + "} while (rand() % 3 == 0);"]
            if form == 2:
                return [pad + "for (;;) {", tick, pad + "    if (rand() % 2) break;"] + body + [pad + "}"]
            return [pad + "for (int i = 0; i < (int)(rand() % 4); i++) {", tick] + body + [pad + "}"]
        within = dict(inside)
        within["break"] = True
        lines = [pad + "switch (rand() %% %d) {" % self.random.randint(2, 6)]
        for case in range(self.random.randint(1, 5)):
            lines.append(pad + "case %d:" % case)
            if self.random.random() < 0.2:
                continue
            lines += self.block(depth + 1, number, within, self.random.randint(0, 3)) or [pad + "    ;"]
            if self.random.random() < 0.7:
                lines.append(pad + "    break;")
        if lines[-1].endswith(":"):
            lines.append(pad + "    break;")
        if self.random.random() < 0.5:
            lines += [pad + "default:"] + (self.block(depth + 1, number, within, self.random.randint(1, 2)) or [pad + "    ;"])
        return lines + [pad + "}"]


def random_policy(chance, labels, functions=(), descriptors=()):
    """A policy over these names: never ambient and with less rights from some label on."""
    lines = ["format = 1"]
    if functions and chance.random() < 0.5:
        lines.append("split = [%s]" % ", ".join('"%s"' % name for name in functions))
    used = [name for name in descriptors if chance.random() < 0.7]
    for name in used:
        lines += ["[[descriptor]]", 'name = "%s"' % name]
    for name in used:
        if chance.random() < 0.8:
            lines += ["[[limit]]", 'descriptor = "%s"' % name, "keep = [%s]" % chance.choice(['"CAP_READ"', "", '"CAP_READ", "CAP_FSTAT"'])]
    for label in chance.sample(labels, min(len(labels), chance.randint(1, 3))):
        tests = [test for test in ["amb"] + ["%s:CAP_WRITE" % name for name in used] if chance.random() < 0.6] or ["amb"]
        lines += ["[[at]]", 'label = "%s"' % label, "never = [%s]" % ", ".join('"%s"' % test for test in tests)]
    if len(labels) > 1 and chance.random() < 0.5:
        first, then = chance.sample(labels, 2)
        lines += ["[[rule]]", 'name = "order"', 'bad = ".* %s .* %s[amb]"' % (first, then)]
    if chance.random() < 0.3:
        lines += ["[[at]]", 'label = "%s"' % chance.choice(labels), 'must = ["amb"]']
    return "\n".join(lines) + "\n"


def part_flow(folder, long):
    """Random flow: outlined and guarded; what is woven runs as the plain program does, and every step has its row in the table."""
    if not has_capweave():
        print("flow: skipped, capweave isn't there")
        return
    counts = {"outlined": 0, "refused": 0, "woven": 0, "refuted": 0, "compared": 0}
    wrong = 0
    os.chdir(folder)
    os.environ["CAPWEAVE"] = capweave()
    names = loaded()
    until = time.time() + SHARE
    for seed in range(1000 if long else 25):
        if not long and time.time() > until:
            break
        text = Flow(seed).text()
        gc.collect()
        if long and seed % 50 == 0:
            print("flow %d: %s" % (seed, counts), flush=True)
        put(folder, "flow.c", text)
        chance = random.Random(seed)
        labels = re.findall(r"(?m)^\s*(\w+):$", text)
        labels = sorted(set(label for label in labels if label not in ("default",) and not label.startswith("case")))
        status = None
        for attempt in range(3):
            put(folder, "flow.toml", random_policy(chance, labels, (), ("fd", "gd")))
            run = called(names, ["weave", "flow.toml", "flow.c", "-o", "flow.woven.c"])
            status = run.returncode
            if status != 1:
                break
        if status == 3 and b"would be repeated" in run.stderr:
            counts["refused"] += 1
            continue
        if status == 1:
            counts["outlined"] += 1
            counts["refuted"] += 1
            continue
        if status in (5,):
            counts["refuted"] += 1
            continue
        if status != 0:
            wrong += 1
            told(False, "flow %d" % seed, run.stderr.decode()[-700:])
            continue
        counts["outlined"] += 1
        counts["woven"] += 1
        if long or seed % 3 == 0:
            plain = compiled(folder, "flow.c", "flow.plain")
            woven = compiled(folder, "flow.woven.c", "flow.run", woven=True)
            if plain.returncode or woven.returncode:
                wrong += 1
                told(False, "flow %d doesn't compile" % seed, (plain.stderr + woven.stderr).decode()[:500])
                continue
            one, other = ran([os.path.join(folder, "flow.plain")], folder), ran([os.path.join(folder, "flow.run")], folder)
            counts["compared"] += 1
            if (one.returncode, one.stdout) != (other.returncode, other.stdout):
                wrong += 1
                told(False, "flow %d runs otherwise" % seed, "%r %r %r" % (one.returncode, other.returncode, other.stderr))
    os.chdir(HERE)
    told(wrong == 0, "random flow", str(counts))
    print("random flow: %s" % counts)


# ---------------------------------------------------------------------------------------------------------------------------------------
# Programs of csmith. It calls functions only inside expressions; here each call becomes a statement before the one that it stood in (what the
# program computes is another thing then, and that doesn't matter: the plain program is the same text), a goto becomes nothing, and labels, opens,
# closes and a function without effects are put in.


class Prepared:
    def __init__(self, seed, folder, flags):
        self.chance = random.Random(seed)
        options = ["-s", str(seed), "--no-consts", "--max-funcs", str(self.chance.randint(3, 9)), "--max-block-depth", str(self.chance.randint(2, 3)),
                   "--max-block-size", str(self.chance.randint(2, 4)), "--max-expr-complexity", str(self.chance.randint(3, 8))]
        if self.chance.random() < 0.5:
            options.append("--no-embedded-assigns")
        text = ran(["csmith"] + options, folder).stdout.decode()
        self.text = re.sub(r"goto lbl_\w+;", ";", text)
        put(folder, "made.c", self.text)
        run = ran([os.environ.get("CAPWEAVE_CLANG") or "clang", "-w", "-Xclang", "-ast-dump=json", "-fsyntax-only", "made.c"] + flags, folder)
        tree = json.loads(run.stdout)
        self.edits = []         # (offset, order, end, text)
        self.results, self.spots = {}, []
        self.count = 0
        self.good = True
        functions = [top for top in tree["inner"] if top["kind"] == "FunctionDecl" and "offset" in top.get("loc", {}) and "includedFrom" not in top["loc"]]
        for top in functions:
            begin = top["range"]["begin"]
            kind = self.text[begin["offset"]:top["loc"]["offset"]]
            kind = re.sub(r"\b(static|inline|const|extern)\b", "", kind).strip()
            self.results.setdefault(top["name"], kind)
        first = None
        for top in functions:
            body = [part for part in top.get("inner", []) if part["kind"] == "CompoundStmt"]
            if body:
                first = first if first is not None else top["range"]["begin"]["offset"]
                self.compound(body[0])
                if top["name"] == "main":
                    self.main_end = body[0]["inner"][-1]["range"]["begin"]["offset"]
                    statements = [part for part in body[0]["inner"] if part["kind"] != "DeclStmt"]
                    self.main_start = statements[0]["range"]["begin"]["offset"]
        if not self.good:
            return
        self.labels = re.findall(r"(?m)^\s*(lbl_\w+):", self.text)
        self.labels = [label for label in self.labels if self.labels.count(label) == 1] + ["pure_lab", "begin_lab"]
        chosen = self.chance.sample(self.spots, min(len(self.spots), self.chance.randint(1, 6)))
        for number, spot in enumerate(chosen):
            self.edits.append((spot, 0, spot, "pl_%d: ;\n" % number))
            self.labels.append("pl_%d" % number)
        for spot in self.chance.sample(self.spots, min(len(self.spots), 3)):
            self.edits.append((spot, 1, spot, "if (fd1 < 0) fd1 = open(\"/dev/null\", 0);\n"))
        for spot in self.chance.sample(self.spots, min(len(self.spots), 3)):
            self.edits.append((spot, 2, spot, "if (pure_count++ < 20) pure_r = pure_1(pure_r, 7);\n"))
        self.edits.append((first, 0, first, "#include <fcntl.h>\n#include <unistd.h>\nstatic int fd1 = -1;\nstatic int fd2 = -1;\nstatic int pure_r, pure_count;\n"
                           "static int pure_1(int a, long b)\n{\n    int r = a;\npure_lab:\n    while (b > 0) {\n        r = (r * 31 + (int)b) & 0xffff;\n        b--;\n    }\n    return r & 0xffff;\n}\n"))
        self.edits.append((self.main_start, 0, self.main_start, "begin_lab: fd2 = open(\"/dev/null\", 1);\n"))
        self.edits.append((self.main_end, 5, self.main_end, "close(fd1);\nclose(fd2);\nprintf(\"%d\\n\", pure_r);\n"))
        out, last = [], 0
        for offset, order, end, text in sorted(self.edits, key=lambda edit: (edit[0], edit[1])):
            out += [self.text[last:offset], text]
            last = end
        self.text = "".join(out + [self.text[last:]])

    def compound(self, node):
        for part in node.get("inner", []):
            self.statement(part)

    def statement(self, node):
        kind = node["kind"]
        if kind == "DeclStmt":
            self.good = self.good and not self.calls(node)
            return
        if kind == "LabelStmt":
            below = node["inner"][0]["kind"]
            if below in ("IfStmt", "ForStmt", "CompoundStmt"):
                self.good = self.good and not self.calls(node)
            else:
                self.hoisted(node, node)
            return
        if "offset" in node["range"]["begin"] and kind not in ("CompoundStmt",):
            self.spots.append(node["range"]["begin"]["offset"])
        if kind == "CompoundStmt":
            self.compound(node)
        elif kind == "IfStmt":
            self.hoisted(node, node["inner"][0])
            for part in node["inner"][1:]:
                self.good = self.good and (part["kind"] == "CompoundStmt" or not self.calls(part))
                if part["kind"] == "CompoundStmt":
                    self.compound(part)
        elif kind == "ForStmt":
            self.good = self.good and not any(self.calls(part) for part in node["inner"][:4] if part)
            self.statement(node["inner"][4])
        else:
            self.hoisted(node, node)

    def calls(self, node):
        """The outermost calls of the program's functions, in the order of the text."""
        if node["kind"] == "CallExpr" and self.name(node):
            return [node]
        return [call for part in node.get("inner", []) if part for call in self.calls(part)]

    def name(self, call):
        node = call["inner"][0]
        while "inner" in node:
            node = node["inner"][0]
        name = node.get("referencedDecl", {}).get("name", "")
        return name if re.match(r"func_\d+$", name) else None

    def hoisted(self, statement, node):
        """Each call of the node becomes a statement before the whole statement, inner ones first."""
        if node is statement and node["kind"] == "CallExpr" and self.name(node):
            calls = [call for part in node["inner"][1:] for call in self.calls(part)]
        else:
            calls = self.calls(node)
        start = statement["range"]["begin"]["offset"] if "offset" in statement["range"]["begin"] else None
        if calls and start is None:
            self.good = False
            return
        lines = []
        for call in calls:
            name, text = self.out_of(call, lines)
            begin, end = call["range"]["begin"]["offset"], call["range"]["end"]["offset"] + 1
            self.edits.append((begin, 9, end, name))
        if lines:
            self.edits.append((start, 3, start, "\n".join(lines) + "\n"))

    def out_of(self, call, lines):
        begin, end = call["range"]["begin"].get("offset"), call["range"]["end"].get("offset")
        if begin is None or end is None:
            self.good = False
            return "0", ""
        text, last = [], begin
        for part in call["inner"][1:]:
            for nested in self.calls(part):
                name, _ = self.out_of(nested, lines)
                text += [self.text[last:nested["range"]["begin"].get("offset", last)], name]
                last = nested["range"]["end"].get("offset", last) + 1
        text.append(self.text[last:end + 1])
        self.count += 1
        name = "hoisted_%d" % self.count
        kind = self.results[self.name(call)]
        if kind == "void":
            self.good = False
        lines.append("%s %s;\n%s = %s;" % (kind, name, name, "".join(text)))
        return name, ""


def loaded(change=lambda text: text):
    """The script as a module, with a change of its text; so that thousands of runs don't start Python anew."""
    with open(SCRIPT) as file:
        text = file.read()
    names = {"__name__": "outline", "__file__": SCRIPT}
    exec(compile(change(text), SCRIPT, "exec"), names)
    return names


def called(names, words):
    """The script's main, as a run that is over."""
    told, status, lines = io.StringIO(), 0, []
    try:
        with contextlib.redirect_stdout(told):
            status = names["main"](words)
    except names["Ended"] as end:
        status, lines = end.status, end.lines
    return subprocess.CompletedProcess(words, status, told.getvalue().encode(), "\n".join(lines).encode())


def undefined(folder, flags):
    """Whether the plain program has no fixed behaviour: two compilers or levels differ, or the sanitizers object."""
    answers = set()
    for words in [["cc", "-O0"], ["cc", "-O2"], ["clang", "-O0"], ["clang", "-O1", "-fsanitize=address,undefined", "-fno-sanitize-recover=all"]]:
        made = ran(words + ["-w", "made.c", "-o", "again"] + flags, folder)
        if made.returncode == 0:
            run = ran([os.path.join(folder, "again")], folder)
            answers.add((run.returncode, run.stdout))
    return len(answers) > 1


def part_csmith(folder, long):
    """Programs of csmith with labels, opens and closes put in, woven under random policies: each prints what the plain program does."""
    include = next((place for place in CSMITH if os.path.isdir(place)), None)
    if shutil.which("csmith") is None or include is None or not has_capweave():
        print("csmith: skipped, csmith or capweave isn't there")
        return
    flags = ["-I" + include]
    os.chdir(folder)
    os.environ["CAPWEAVE"] = capweave()
    names, memory = loaded(), {}
    read = names["compiler_tree"]

    def remembered(source, words):
        if "tree" not in memory:
            memory["tree"] = read(source, words)
        return memory["tree"]

    names["compiler_tree"] = remembered     # the tries of one program have one tree
    wanted = int(os.environ.get("OUTLINE_COUNT", "0")) or (1000 if long else 4)
    counts = {"compared": 0, "tried": 0, "not prepared": 0, "plain fails": 0, "repeated": 0, "over a limit": 0, "seams": 0, "split": 0, "limited": 0, "undefined": 0}
    seed = int(os.environ.get("OUTLINE_SEED", "0"))
    wrong = 0
    until = time.time() + SHARE
    while counts["compared"] < wanted and counts["tried"] < 10 * wanted and (long or time.time() < until):
        seed += 1
        counts["tried"] += 1
        try:
            made = Prepared(seed, folder, flags)
        except (KeyError, ValueError):
            counts["not prepared"] += 1
            continue
        if not made.good:
            counts["not prepared"] += 1
            continue
        put(folder, "made.c", made.text)
        plain = compiled(folder, "made.c", "plain", flags + ["-O0"])
        if plain.returncode:
            counts["not prepared"] += 1
            if os.environ.get("OUTLINE_KEEP"):
                print(seed, plain.stderr.decode()[:300])
            continue
        try:
            one = ran([os.path.join(folder, "plain")], folder, limit=3)
        except subprocess.TimeoutExpired:
            counts["plain fails"] += 1
            continue
        if one.returncode:
            counts["plain fails"] += 1
            continue
        memory.clear()
        gc.collect()
        for attempt in range(4):
            policy = random_policy(made.chance, made.labels, ("pure_1",), ("fd1", "fd2")) if attempt < 3 else SIMPLE % made.chance.choice(made.labels)
            if attempt < 2 and seed % 3 == 0:
                policy = SPLIT_CALLS % made.chance.choice([label for label in made.labels if label != "pure_lab"])
            put(folder, "made.toml", policy)
            run = called(names, ["weave", "made.toml", "made.c", "-o", "woven.c", "--"] + flags)
            if run.returncode not in (1, 4):
                break
        if run.returncode == 5:
            counts["over a limit"] += 1
            continue
        if run.returncode == 3 and b"would be repeated" in run.stderr:
            counts["repeated"] += 1
            continue
        if run.returncode:
            wrong += 1
            told(False, "csmith %d" % seed, "status %d %s" % (run.returncode, run.stderr.decode()[-500:]))
            keep(folder, seed)
            continue
        with open(os.path.join(folder, "woven.c")) as file:
            text = file.read()
        same = called(names, ["same", "woven.c", "made.c"])
        counts["seams"] += text.count("/*cw{*/CW_")
        counts["split"] += "CW_INTO(" in text and re.search(r"CW_INTO\(\d+,1,", text) is not None
        counts["limited"] += b"limit" in run.stdout
        woven = compiled(folder, "woven.c", "woven", flags + ["-O0"], woven=True)
        other = ran([os.path.join(folder, "woven")], folder) if woven.returncode == 0 else woven
        counts["compared"] += 1
        if same.returncode or (one.returncode, one.stdout) != (other.returncode, other.stdout):
            if same.returncode == 0 and undefined(folder, flags):
                counts["undefined"] += 1
                counts["compared"] -= 1
                continue
            wrong += 1
            told(False, "csmith %d runs otherwise" % seed, "%r %r %r" % (one.stdout[-100:], other.stdout[-100:], other.stderr[-300:]))
            keep(folder, seed)
        if long and counts["compared"] % 10 == 0:
            print("csmith: %s" % counts, flush=True)
    os.chdir(HERE)
    told(wrong == 0 and (not long or counts["compared"] == wanted), "programs of csmith", str(counts))
    print("csmith: %s" % counts)


# ---------------------------------------------------------------------------------------------------------------------------------------
# Ten tools in the style of a base system

FILES = {
    "text": b"one two three\none two three\n\n\n  five\tsix, seven\nEight\neight\n" + b"".join(b"line %d of many\n" % n for n in range(30)) + b"no end",
    "other": b"one two three\none two thrEe\n", "log": b"E bad\nFx\nok line\n<3>err\n<5>notice\n<7>info\n\n\001\n", "empty": b"",
    "bytes": bytes(range(256)) * 3 + b"\0\0odd", "fields": b"a:b:c\nno delimiter\n::x\n\nlast:one",
}
RUNS = {
    "cat": [["text"], ["-n", "text", "absent", "other"], ["-be", "text"], ["-s", "text"], ["-z"], [], ["-n"], ["empty", "bytes"], ["."]],
    "wc": [["text"], ["-l", "text", "other"], ["-wc", "absent", "text"], ["-L", "text"], ["-x"], [], ["empty"], ["bytes", "fields", "log"]],
    "head": [["text"], ["-n", "3", "text", "other"], ["-c", "20", "text"], ["-c", "1k", "bytes"], ["-5", "text"], ["-n", "x"], ["-n", "1", "-c", "2"], ["absent", "text"], []],
    "cmp": [["text", "text"], ["text", "other"], ["-l", "text", "other"], ["-s", "text", "other"], ["-z", "text", "log"], ["text", "absent"], ["empty", "text"], ["text"], ["-ls", "a", "b"]],
    "cksum": [["text", "other"], ["-q", ".", "text"], [".", "absent"], ["-o", "3", "bytes"], ["-o", "1", "text"], ["-o", "9"], [], ["empty"]],
    "cut": [["-f", "1,3", "-d", ":", "fields"], ["-c", "2-4,6", "text"], ["-c", "5-", "text"], ["-f", "2", "-s", "-d", ":", "fields", "absent"], ["-c", "0", "text"], ["-f", "1", "-c", "1"], ["-c", "1"], ["-c", "-3", "text"]],
    "uniq": [["text"], ["-c", "text"], ["-d", "text"], ["-ui", "text"], ["-s", "4", "text", "made"], ["absent"], [], ["-x"], ["empty"]],
    "tee": [["made"], ["-a", "log"], [], ["-i", "made"], ["/nowhere/made"], ["-x"]],
    "dump": [["bytes"], ["-c", "bytes"], ["-x", "-j", "7", "text"], ["-j", "5"], ["absent"], ["-j", "x"], ["a", "b"], ["empty"]],
    "logsort": [[], ["-q"], ["-x"]],
}


def behaviour(program, words, folder, name):
    """What a run prints, its status, and the files that it leaves."""
    room = os.path.join(folder, "room")
    shutil.rmtree(room, ignore_errors=True)
    os.mkdir(room)
    for file_name, text in FILES.items():
        with open(os.path.join(room, file_name), "wb") as file:
            file.write(text)
    link = os.path.join(folder, name)
    if os.path.lexists(link):
        os.unlink(link)
    os.link(program, link)
    run = ran([link] + words, room, FILES["log"] if name == "logsort" else FILES["text"])
    left = {}
    for file_name in sorted(os.listdir(room)):
        with open(os.path.join(room, file_name), "rb") as file:
            left[file_name] = file.read()
    return run.returncode, run.stdout, run.stderr, left


def part_samples(folder, long):
    """Each of the ten tools is woven, and does under the stand-in what the plain tool does; each tells what was inserted."""
    if not has_capweave():
        print("samples: skipped, capweave isn't there")
        return
    flags = ["-D_GNU_SOURCE", "-D_DEFAULT_SOURCE"]
    count = 0
    for name in sorted(RUNS):
        source, policy = os.path.join(HERE, "samples", name + ".c"), os.path.join(HERE, "samples", name + ".toml")
        shutil.copy(source, folder)
        shutil.copy(policy, folder)
        run = outline(["weave", name + ".toml", name + ".c", "-o", name + ".woven.c", "--"] + flags, folder)
        if not told(run.returncode == 0, "weave " + name, run.stderr.decode()):
            continue
        told(re.search(rb"(?m)^%s\.c:\d+: (label|call of|entry of) \w+: " % name.encode(), run.stdout) is not None, "what is told of " + name, run.stdout)
        told(outline(["same", name + ".woven.c", name + ".c"], folder).stdout == b"yes\n", "same " + name)
        plain = compiled(folder, name + ".c", name + ".plain", flags)
        woven = compiled(folder, name + ".woven.c", name + ".run", flags, woven=True, enforce=True)
        if not told(plain.returncode == 0 and woven.returncode == 0, "compile " + name, (plain.stderr + woven.stderr).decode()):
            continue
        for words in RUNS[name]:
            one = behaviour(os.path.join(folder, name + ".plain"), words, folder, name)
            other = behaviour(os.path.join(folder, name + ".run"), words, folder, name)
            count += 1
            told(one == other, "%s %s" % (name, " ".join(words)), "%r %r" % (one[:3], other[:3]))
        os.environ["CW_LOG"] = "1"
        log = behaviour(os.path.join(folder, name + ".run"), RUNS[name][0], folder, name)[2]
        del os.environ["CW_LOG"]
        told(b" granted" in log, "something is granted in a run of " + name, log)
    print("samples: %d runs under %s" % (count, " ".join(standin_flags())))


def part_examples(folder, long):
    """A file that is in the subset gets the table that `capweave weave` gives it, and the same marks at the same places."""
    if not has_capweave():
        print("examples: skipped, capweave isn't there")
        return
    for name in sorted(os.path.basename(name)[:-8] for name in glob.glob(os.path.join(EXAMPLES, "*.woven.c"))):
        policy = os.path.join(EXAMPLES, name + ".toml")
        if not os.path.exists(policy):
            continue
        with open(policy) as file:
            if "\ndetached" in file.read():        # what detaches functions is woven by `procs`
                continue
        for end in (".c", ".toml", ".woven.c"):
            shutil.copy(os.path.join(EXAMPLES, name + end), folder)
        run = outline(["weave", name + ".toml", name + ".c", "-o", "mine.c", "--", "-D_DEFAULT_SOURCE"], folder)
        with open(os.path.join(folder, name + ".woven.c")) as file:
            want = [line for line in file.read().split("\n") if not line.startswith("CW_LIVE")]
        with open(os.path.join(folder, "mine.c")) as file:
            have = [line for line in file.read().split("\n") if not line.startswith(("CW_LIVE", "#line"))]
        told(run.returncode == 0 and want == have, "the table of " + name, run.stderr.decode())


# ---------------------------------------------------------------------------------------------------------------------------------------
# Refusals: @ stands where the refusal is told, and isn't part of the source

HEAD = "#include <stdio.h>\n#include <stdlib.h>\n#include <setjmp.h>\n#include <unistd.h>\n#include <fcntl.h>\nstatic int fd = -1, other_int;\nstatic int f(int n)\n{\n    return n;\n}\nstatic void g(void)\n{\n}\n"
IN_MAIN = HEAD + "int main(int argc, char **argv)\n{\n    int r = 0, n = argc;\n%s\n    return r + n;\n}\n"
REFUSALS = [    # (what stands in main, or a whole file; part of the text)
    ("again:\n    r++;\n    if (r < 3)\n        @goto again;", "goto has no outline"),
    ("    void *p = @&&there;\nthere:\n    @goto *p;", "has no outline"),
    ("    static jmp_buf b;\n    if (@setjmp(b))\n        r = 1;", "setjmp has no outline"),
    ("    static sigjmp_buf b;\n    if (@sigsetjmp(b, 1))\n        r = 1;", "has no outline"),
    ("    qsort(argv, n, sizeof *argv, (int (*)(const void *, const void *))@f);", "the address of f"),
    ("    int (*p)(int) = @f;\n    r = p(n);", "the address of f"),
    ("    int (*p)(int);\n    p = &@f;\n    r = p(n);", "the address of f"),
    ("    if (@f(n))\n        r = 1;", "write 'r = f(..);' before the if"),
    ("    while (@f(n) > 2)\n        n--;", "at the start of the loop's body"),
    ("    do\n        n--;\n    while (@f(n) > 2);", "at the end of the loop's body and before each continue, and r"),
    ("    for (n = @f(3); n; n--)\n        r++;", "write it before the loop"),
    ("    for (; @f(n); n--)\n        r++;", "at the start of the loop's body"),
    ("    for (; n; n = @f(n) - 1)\n        r++;", "at the end of the loop's body"),
    ("    for (; n > 9; @g())\n        n--;", "at the end of the loop's body"),
    ("    switch (@f(n)) {\n    case 1:\n        r = 2;\n    }", "before the switch"),
    ("    if (n > 99)\n        return @f(n);", "write 'r = f(..); return r;'"),
    ("    int k = @f(n);\n    r = k;", "write the declaration, and behind it 'k = f(..);'"),
    ("    int k = 1 + @f(n);\n    r = k;", "write the declaration, 'r = f(..);' behind it"),
    ("    int k[] = { 1, @f(n) };\n    r = k[0];", "a call of f"),
    ("    printf(\"%d\\n\", @f(n));", "write 'r = f(..);' before the statement"),
    ("    r = f(@f(n));", "write 'r = f(..);' before the statement"),
    ("    r += @f(n);", "write 'r = f(..);' before the statement"),
    ("    r = @f(n) + 1;", "write 'r = f(..);' before the statement"),
    ("    r = -@f(n);", "a call of f"),
    ("    n && @f(n);", "put it into an 'if'"),
    ("    r = n ? @f(n) : 3;", "put it into an 'if'"),
    ("    r = 1, @g();", "write two statements"),
    ("    n && printf(\"%d\", @f(n));", "put it into an 'if'"),
    ("    while (puts(argv[@f(n)]))\n        n--;", "at the start of the loop's body"),
    ("    if (@vfork())\n        r = 1;", "vfork has no outline"),
    ("    argv[@f(0)][0] = 0;", "a call of f"),
    ("    char @v[f(n)];\n    r = sizeof v;", "stands in a type"),
    ("    struct { char v[3]; } w[2];\n    r = sizeof w + @f(1);", "a call of f"),
    ("    r = (@(int (*)[f(n)])argv)[0][0];", "a call of f"),
    ("#define TWICE(x) do { f(x); f(x); } while (0)\n    @TWICE(n);", "stands in a macro"),
    ("#define APPLY(x) x\n    @APPLY(f(n));", "stands in a macro"),
    ("#define HERE here:\n    @HERE\n    r = 2;", "stands in a macro"),
    ("#define OPEN fd = open(\"x\", 0)\n    @OPEN;", "an open of fd stands in a macro"),
    ("#define CLOSE close(fd)\n    @CLOSE;", "a close of fd stands in a macro"),
    ("    switch (n) {\n        do {\n    @case 3:\n            r++;\n        } while (r < 3);\n    }", "a case inside an inner statement"),
    ("    switch (n) {\n    @here:\n    case 3:\n        r++;\n    }", "stands before a case"),
    ("    switch (n) {\n        @r = 9;\n    case 3:\n        r++;\n    }", "nothing leads to a statement before the first case"),
    ("    for (; n; n--) {\n        switch (n) {\n        case 1:\n            if (r)\n                break;\n            r++;\n        case 2:\n@here:\n            r++;\n            continue;\n        case 3:\n            r--;\n        }\n        r += 2;\n    }",
     "the label here would be repeated"),
    ("    for (; n; n--) {\n        switch (n) {\n        case 1:\n            if (r)\n                break;\n            r++;\n        case 2:\n            @r = f(r);\n            continue;\n        case 3:\n            r--;\n        }\n        r += 2;\n    }",
     "a call of f would be repeated"),
    ("    for (; n; n--) {\n        switch (n) {\n        case 1:\n            if (r)\n                break;\n            r++;\n        case 2:\n            @fd = open(\"x\", 0);\n            continue;\n        case 3:\n            r--;\n        }\n        r += 2;\n    }",
     "an open of fd would be repeated"),
    ("    r = ({ int k = n; if (k) @return 3; k; });", "a jump or a label inside an expression"),
    ("    r = ({ @inside: n; });", "a jump or a label inside an expression"),
    ("    r = ({ @f(n); });", "a call of f"),
    ("    @__asm__ goto (\"\" : : : : away);\naway:\n    r = 1;", "asm of this form"),
    (HEAD + "static void done(int *p)\n{\n    *p = 0;\n}\nint main(void)\n{\n    __attribute__((cleanup(done))) int @k = 3;\n    return k;\n}\n", "cleanup"),
    ("    int cw_r = 3;\n    r = cw_r;", "names that begin with cw_"),
    ("    /* cw{" "* */", "marks are written so"),
    (HEAD + "struct c { int (*p)(int); };\nstatic const struct c t[] = { { @f } };\nint main(void)\n{\n    return t[0].p(1);\n}\n", "the address of f"),
    (HEAD + "__attribute__((constructor)) static void @early(void)\n{\n}\nint main(void)\n{\n    return 0;\n}\n", "attribute constructor"),
    (HEAD + "#define BODY { return 0; }\nint main(void)\n@BODY\n", "stands in a macro"),
    (HEAD + "int main(void)\n{\n#include \"part.h\"\n    return 0;\n}\n", "stands in an included file"),
    (HEAD + "int main(void)\n{\n    return @none;\n}\n", "undeclared identifier"),
    (HEAD + "static int k(int n, int @b[n + f(2)])\n{\n    return n + b[0];\n}\nint main(void)\n{\n    return 0;\n}\n", "stands in a type"),
    (HEAD.replace("#include", "@#include", 1) + "#include \"table.h\"\nint main(void)\n{\n    return 0;\n}\n", "an included file names f"),
]
# with a policy on fd and, where it has one, on the label L
MISUSES = [
    ("    if ((@fd = open(\"x\", 0)) < 0)\n        return 1;", "write 'fd = open(..);' as a statement of its own"),
    ("    while ((@fd = open(\"x\", 0)) >= 0)\n        r++;", "write 'fd = open(..);' as a statement of its own"),
    ("    if (@close(fd) < 0)\n        return 1;", "write 'close(fd);' as a statement of its own"),
    ("    r = @close(fd);", "write 'close(fd);' as a statement of its own"),
    ("    @fd = -1;", "a descriptor of the policy is used in a way that isn't seen"),
    ("    scanf(\"%d\", &@fd);", "a descriptor of the policy is used in a way that isn't seen"),
    ("    @fd++;", "a descriptor of the policy is used in a way that isn't seen"),
    ("    @fd = f(3);", "a descriptor of the policy is used in a way that isn't seen"),
    ("    @fd = n ? open(\"x\", 0) : 3;", "a descriptor of the policy is used in a way that isn't seen"),
    ("    r = fd;\n}\nstatic int @other_fd;\nstatic int rest(void)\n{\n    int n = 3, r = 2;\n    close(other_fd);", "before the first function"),
    ("    int @lfd;\n    lfd = open(\"x\", 0);\n    close(lfd);", "it stands in a function"),
    ("    if (n) {\n        int @fd = 3;\n        r = fd;\n    }", "no parameter or local variable may have its name"),
    ("    if (@close(0) < 0)\n        return 1;", "write 'close(0);' as a statement of its own"),
    ("    r = @close(0);", "write 'close(0);' as a statement of its own"),
    ("    !@close(0);", "write 'close(0);' as a statement of its own"),
    ("    static int k;\n    k = @close(0) + (other_int = 3);", "write 'close(0);' as a statement of its own"),
    ("    other_int = @close(0);", "write 'close(0);' as a statement of its own"),
    ("    other_int = @close(fd);", "write 'close(fd);' as a statement of its own"),
    ("    other_int = open(\"x\", @close(0));", "write 'close(0);' as a statement of its own"),
    ("    r = f(@close(0));", "write 'close(0);' as a statement of its own"),
    ("    close(12), @close(0);", "write 'close(0);' as a statement of its own"),
]
ON_FD = 'format = 1\n[[descriptor]]\nname = "fd"\n[[descriptor]]\nname = "0"\n[[limit]]\ndescriptor = "fd"\nkeep = []\n[[at]]\nlabel = "L"\nnever = ["fd:CAP_READ"]\n'
POLICIES = [    # (a policy, a whole file, the status, part of the text)
    (ON_FD.replace('"fd', '"hfd'), "#include \"uses.h\"\n#include <fcntl.h>\nint @hfd = -1;\nint main(void)\n{\n    hfd = open(\"x\", 0);\nL:\n    return 0;\n}\n", 3, "an included file names hfd"),
    ("format = 3\n", IN_MAIN % "", 4, "p.toml:1:1: error: policy: kind format"),
    ('format = 1\n[[at]]\nlabel = "nowhere"\n', IN_MAIN % "", 4, "policy: no label nowhere"),
    ('format = 1\nsplit = ["g"]\n', HEAD.replace("{\n}", "{\n    @fd = 3;\n}") + "int main(void)\n{\n    return f(0) * 0;\n}\n".replace("return f(0) * 0", "return 0"), 4, "g can't run in a process of its own"),
    ('format = 1\nsplit = ["s"]\n', "static char b[9];\nstatic int s(int n)\n{\n    @b[n] = 1;\n    return 0;\n}\nint main(void)\n{\n    s(1);\n    return 0;\n}\n", 4, "s can't run"),
    ('format = 1\nsplit = ["s"]\n', "struct t { int a; };\nstatic int s(struct t *p)\n{\n    return p->a;\n}\nint main(void)\n{\n    struct t t = { 1 };\n    s(&t);\n    return 0;\n}\n", 4, "s can't run"),
    ('format = 1\nsplit = ["s"]\n', "static struct { int a; } t;\nstatic int s(int n)\n{\n    @t.a = n;\n    return 0;\n}\nint main(void)\n{\n    s(1);\n    return 0;\n}\n", 4, "s can't run"),
    ('format = 1\nsplit = ["s"]\n', "static int s(int n)\n{\n    static int @k;\n    return n + k;\n}\nint main(void)\n{\n    s(1);\n    return 0;\n}\n", 4, "s can't run"),
    ('format = 1\nsplit = ["s"]\n', "#include <stdio.h>\nstatic char b[9];\nstatic int s(int n)\n{\n    @puts(b);\n    return n;\n}\nint main(void)\n{\n    s(1);\n    return 0;\n}\n", 4, "s can't run"),
    ('format = 1\nsplit = ["s"]\n', "#include <errno.h>\nstatic int s(int n)\n{\n    @errno = n;\n    return n;\n}\nint main(void)\n{\n    s(1);\n    return 0;\n}\n", 4, "s can't run"),
    ('format = 1\nsplit = ["s"]\n[[at]]\nlabel = "in"\nnever = ["amb"]\n[[at]]\nlabel = "out"\nmust = ["amb"]\n',
     "static int s(int n)\n{\nin:\n    return n;\n}\nint main(void)\n{\n    int n = 3;\n    @s(n++);\nout:\n    return n;\n}\n", 3, "so do its arguments"),
    ('format = 1\nsplit = ["s"]\n[[at]]\nlabel = "in"\nnever = ["amb"]\n[[at]]\nlabel = "out"\nmust = ["amb"]\n',
     "static int s(int n)\n{\nin:\n    return n;\n}\nint main(void)\n{\n    int n[3];\n    @n[1] = s(2);\nout:\n    return n[1];\n}\n", 3, "its result goes into a plain variable"),
    ('format = 1\n[[descriptor]]\nname = "no_such"\n', IN_MAIN % "", 3, "it wants 'static int no_such = -1;'"),
    ('format = 1\n', "static int f(void)\n{\n    return 0;\n}\n", 3, "there is no main"),
    ('format = 1\n[[at]]\nlabel = "L"\nmust = ["amb"]\nnever = ["amb"]\n', IN_MAIN % "L:\n    r = 1;", 1, "no placement of calls can meet this policy"),
]


def refused(folder, words, text, status, part, what):
    """Whether the run ends with this status and tells this text at the place of @, or of each @."""
    places = []
    for found in re.finditer("@", text):
        before = text[:found.start()].replace("@", "")
        places.append("x.c:%d:%d: error: " % (before.count("\n") + 1, len(before) - before.rfind("\n")))
    put(folder, "x.c", text.replace("@", ""))
    put(folder, "woven.c", "older")
    run = outline(words, folder)
    lines = run.stderr.decode().split("\n")
    parts = [part] if isinstance(part, str) else part
    good = run.returncode == status and all(any(line.startswith(place) for line in lines) for place in places)
    good = good and all(any(part in line for line in lines) for part in parts) and (len(parts) == 1 or len(lines) - 1 == len(places))
    if len(parts) > 1 and not good:
        print("missing: %s %s; lines %d, places %d" % ([place for place in places if not any(line.startswith(place) for line in lines)],
                                                       [part for part in parts if not any(part in line for line in lines)], len(lines) - 1, len(places)))
    form = re.match(r"[^:\n]+:\d+:\d+: error: ", lines[0]) is not None
    told(good and form, "refusal: %s" % what, "%r: status %d %s" % (text[-200:], run.returncode, run.stderr.decode()))
    if words[0] == "weave":
        told(not os.path.exists(os.path.join(folder, "woven.c")), "no file after a refusal: %s" % what)


def part_refusals(folder, long):
    """Each refusal at its place, in the form FILE:L:C: error: TEXT."""
    put(folder, "part.h", "    f(1);\n")
    put(folder, "table.h", "static int (*const table[])(int) = { f };\n")
    put(folder, "uses.h", "extern int x;\nextern int hfd;\nstatic inline void uses(void)\n{\n    hfd = 3;\n}\n")
    together, parts = [HEAD], []
    for number, (text, part) in enumerate(REFUSALS):
        alone = "main(" in text or "cw_" in text or "cw{" in text
        if alone or long:
            refused(folder, ["outline", "x.c"], text if "main(" in text else IN_MAIN % text, 3, part, part)
        if not alone:
            together.append("static int m%d(int argc, char **argv)\n{\n    int r = 0, n = argc;\n%s\n    return r + n;\n}\n" % (number, text))
            parts.append(part)
    refused(folder, ["outline", "x.c"], "".join(together) + "int main(void)\n{\n    return 0;\n}\n", 3, parts, "all of them in one file")
    if not has_capweave():
        print("refusals: the ones of policies are skipped, capweave isn't there")
        return
    put(folder, "p.toml", ON_FD)
    for text, part in MISUSES:
        put(folder, "p.toml", ON_FD.replace("fd", "other_fd" if "other_fd" in text else "lfd" if "lfd" in text else "fd"))
        refused(folder, ["weave", "p.toml", "x.c", "-o", "woven.c"], IN_MAIN % (text + "\nL:\n    r = 1;"), 3, part, part)
    for policy, text, status, part in POLICIES:
        put(folder, "p.toml", policy)
        refused(folder, ["weave", "p.toml", "x.c", "-o", "woven.c"], text, status, part, part)
    put(folder, "ok.c", IN_MAIN % "L:\n    r = 1;")
    put(folder, "ok.toml", 'format = 1\n[[at]]\nlabel = "L"\nnever = ["amb"]\n')
    for words, status, part in [(["outline"], 2, "usage"), (["outline", "none.c"], 6, "none.c:1:1: error: No such file"), (["weave", "ok.toml", "ok.c"], 2, "usage"),
                                (["weave", "ok.toml", "ok.c", "-o", "ok.c"], 2, "can't go into"), (["weave", "none.toml", "ok.c", "-o", "w.c"], 6, "read"),
                                (["weave", "ok.toml", "ok.c", "-o", "none/w.c"], 7, "none/w.c:1:1: error: No such file"), (["same", "ok.c", "ok.toml"], 1, "differs"),
                                (["same", "ok.c", "none.c"], 6, "No such file"), (["weave", "ok.toml", "ok.c", "-o", "w.c", "--", "-Dmain=other"], 3, "there is no main"),
                                (["outline", "ok.c", "--", "-fno-such-flag"], 3, "ok.c:1:1: error: the compiler refuses this file or its flags"),
                                (["outline", "ok.c", "--", "-include", "none.h"], 3, "'none.h' file not found")]:
        run = outline(words, folder)
        told(run.returncode == status and part in run.stderr.decode(), "words %s" % words, "%d %s" % (run.returncode, run.stderr.decode()))
    for environment, part in [({"CAPWEAVE_CLANG": "/none/clang"}, "the compiler /none/clang can't be run"), ({"CAPWEAVE": "/none/capweave"}, "the program /none/capweave can't be run")]:
        run = ran([sys.executable, SCRIPT, "weave", "ok.toml", "ok.c", "-o", "w.c"], folder, env=dict(os.environ, **environment))
        told(run.returncode == 11 and part in run.stderr.decode(), part, run.stderr.decode())


# ---------------------------------------------------------------------------------------------------------------------------------------
# A file of 5,000 lines

def big_file(lines):
    text = ["#include <sys/stat.h>", "#include <err.h>", "#include <errno.h>", "#include <fcntl.h>", "#include <stdio.h>", "#include <stdlib.h>", "#include <string.h>",
            "#include <unistd.h>", "", "static int in = -1;", "static struct stat st;", "struct item { int kind; const char *name; struct item *next; };",
            "static struct item *items;", "static char buf[8192];", ""]
    number = 0
    while len(text) < lines - 40:
        text += ["static int", "step%d(struct item *item, int n)" % number, "{", "\tchar *p, *end;", "\tint i, r = 0;", "",
                 "\tfor (i = 0, p = buf; i < n; i++, p++) {", "\t\tswitch (*p) {", "\t\tcase '\\n':", "\t\t\tr++;", "\t\t\tcontinue;", "\t\tcase ' ':", "\t\tcase '\\t':",
                 "\t\t\tif (item->kind == %d)" % number, "\t\t\t\tbreak;", "\t\t\t/* FALLTHROUGH */", "\t\tcase '#':", "\t\t\tend = strchr(p, '\\n');", "\t\t\tif (end == NULL)",
                 "\t\t\t\treturn (r);", "\t\t\ti += end - p;", "\t\t\tp = end;", "\t\t\tbreak;", "\t\tdefault:", "\t\t\tif (fstat(0, &st) < 0)", "\t\t\t\twarn(\"%s\", item->name);", "\t\t}",
                 "\t\titem->kind += *p;", "\t}"]
        if number:
            text += ["\tr = step%d(item, n - 1);" % (number - 1)]
        if number % 20 == 0:
            text += ["parse%d:" % number, "\tif (r > 99)", "\t\terrx(1, \"%s\", item->name);"]
        text += ["\treturn (r + (item->next != NULL ? item->next->kind : 0));", "}", ""]
        number += 1
    text += ["int", "main(int argc, char *argv[])", "{", "\tstruct item first = { 1, \"x\", NULL };", "\tint r;", "", "\titems = &first;", "begin:", "\tin = open(argv[argc - 1], O_RDONLY);",
             "\tif (in < 0)", "\t\terr(1, \"open\");", "\tr = read(in, buf, sizeof buf);", "\tr = step%d(items, r);" % (number - 1), "\tclose(in);", "\tprintf(\"%d\\n\", r);", "\treturn (0);", "}"]
    text += [""] * (lines - len(text))
    return "\n".join(text) + "\n"


BIG = 'format = 1\n[[descriptor]]\nname = "in"\n[[limit]]\ndescriptor = "in"\nkeep = []\n[[at]]\nlabel = "begin"\nmust = ["amb"]\n[[at]]\nlabel = "parse0"\nnever = ["amb", "in:CAP_READ"]\n'


def part_big(folder, long):
    """A file of 5,000 lines: outlined and woven within two seconds each (in the long form, when the machine is quiet; in the short one, ten)."""
    put(folder, "big.c", big_file(5000))
    put(folder, "big.toml", BIG)
    if long and has_capweave():
        put(folder, "huge.c", big_file(14000))
        run = outline(["weave", "big.toml", "huge.c", "-o", "huge.woven.c"], folder)
        told(run.returncode == 0, "14,000 lines, by a thinned outline", run.stderr.decode())
    for words in [["outline", "big.c", "-o", "big.outline.c"]] + [["weave", "big.toml", "big.c", "-o", "big.woven.c"]] * has_capweave():
        least = 99.0
        for attempt in range(3 if long else 1):
            begun = time.time()
            run = outline(words, folder)
            least = min(least, time.time() - begun)
        told(run.returncode == 0, "5,000 lines: " + words[0], run.stderr.decode())
        told(least <= (2 if long else 10), "5,000 lines, %s: %.2f s" % (words[0], least))
        print("5,000 lines, %s: %.2f s" % (words[0], least))


# ---------------------------------------------------------------------------------------------------------------------------------------
# Faults put into the first walk, the writer or the marks: the guard has to find each, and no file is written

FAULTS = [      # (what is said, what stands there, what is put in its place)
    ("fall-through is lost", "if segment and not completes(segment):", "if segment:"),
    ("a switch without default always takes a case", "+ ([] if has_default else [[]])", "+ []"),
    ("a switch with default may take none", "+ ([] if has_default else [[]])", "+ [[]]"),
    ("what follows an if that leaves is lost", "arms = left, right + rest", "arms = left, right"),
    ("what follows an if that leaves otherwise is lost", "arms = left + rest, right\n", "arms = left, right\n"),
    ("break of a switch is continue", 'with_leaves_as(alternative, "break")', 'with_leaves_as(alternative, "continue")'),
    ("the way into a later case is lost", 'items = ([Item("if", items[0].at, None, [items, None])] if items else []) + segment', "items = items + segment"),
    ("the way through an earlier case is lost", 'items = ([Item("if", items[0].at, None, [items, None])] if items else []) + segment', "items = segment"),
    ("do is while", 'return [Item("do", at,', 'return [Item("while", at,'),
    ("while is if", 'return [Item("while", at, self.test_of(found, at), [self.loop_body(parts[1])])]', 'return [Item("if", at, self.test_of(found, at), [self.loop_body(parts[1]), None])]'),
    ("a for without condition may end", 'if test else None)', 'if test else [("test()", at)])'),
    ("a for with a condition never ends", 'texts.append(self.test_of(self.condition(test, "while"), self.begin(test)) if test else None)', "texts.append(None)"),
    ("continue is break", 'return [Item("continue", at)]', 'return [Item("break", at)]'),
    ("return goes on", 'return [Item("return", at,', 'return [Item("text", at,'),
    ("the last arm of an if is lost", "last = self.list_of(parts[2:3], ends)", "last = []"),
    ("the first arm of an if with else is lost", "self.list_of(parts[1:2], ends)))", "self.list_of(parts[1:2], ends) if len(parts) < 3 else []))"),
    ("what a label stands before is lost", "return items + (self.statement(sub[-1], ends) if sub else [])", "return items"),
    ("a statement is lost", "for number, node in enumerate(nodes):\n            items += self", "for number, node in enumerate(nodes[1:] if len(nodes) > 3 else nodes):\n            items += self"),
    ("two statements change places", "for number, node in enumerate(nodes):\n            items += self", "for number, node in enumerate(nodes[:-2] + nodes[:-3:-1]):\n            items += self"),
    ("opens aren't seen", "if name is not None:\n                    return self.open", "if name is not None and False:\n                    return self.open"),
    ("closes aren't seen", "if closed is not None:\n            mark", "if False:\n            mark"),
    ("a call that ends goes on", "self.callee(bare) in self.endless", "False"),
    ("every call ends", "self.callee(bare) in self.endless", "self.callee(bare)"),
    ("a long chain of if has no last arm", "+ [last or []])]", ")]"),
    ("else goes to another if", "elif items:\n            self.braced(items)", "elif items:\n            self.items(items)"),
    ("a loop that is run once is run again", '+ [Item("break", item.at)])', ")"),
    ("a mark of a label stands one byte late", "mark = behind.end()\n", "mark = behind.end() + 1\n"),
    ("a mark of a call stands one byte late", 'mark = self.mark_at(node, "a call of %s" % name)', 'mark = self.mark_at(node, "a call of %s" % name) + 1'),
    ("a mark of a function stands before its brace", '["begin"].get("tokLen", 1)', '["begin"].get("tokLen", 1) * 0'),
    ("marks change places", "inserted.append((seam[\"mark\"], mark, seam, number))", "inserted.insert(0, (seam[\"mark\"], mark, seam, number))"),
    ("a write isn't seen to be one", 'self.piece(found, known, "%s = 0", node)', "pass"),
    ("an open is told as a close", '("open", name), mark)]', '("close", name), mark)]'),
]
GUARDED = """#include <stdio.h>
static int shared;

#include <stdlib.h>
#include <fcntl.h>
#include <unistd.h>
static int fd = -1;
static int sharing(int k)
{
inside:
    shared = k;
    return k;
}
static int f(int n)
{
%s    if (n)
        n = 1;
    else
last:   n = 2;
    if (n == 77)
one:    puts("one");
    else
two:    puts("two");
    return n;
}
int main(int argc, char **argv)
{
    int n = argc, r = 0;
    fd = open("/dev/null", 0);
    if (fd < 0) {
z:      puts("z");
        exit(1);
    }
y:  r = f(4);
    switch (n) {
    case 1:
j:      puts("j");
        break;
    case 2:
k:      puts("k");
    }
m:  switch (n) {
    case 1:
o:      puts("o");
        break;
    default:
p:      puts("p");
    }
q:  switch (n) {
    case 1:
        if (r) {
            if (n)
                break;
s:          puts("s");
        }
t:      puts("t");
    }
u:  for (;;) {
        switch (n++) {
        case 1:
            r = f(1);
        case 2:
            if (r)
                break;
a:          puts("a");
        case 3:
b:          puts("b");
            break;
        case 4:
            if (r)
                return 3;
            r++;
        }
c:      puts("c");
        sharing(3);
        if (n > 9)
            break;
    }
    while (n-- > 3) {
        switch (n) {
        case 4:
            if (n)
                break;
d:          puts("d");
            break;
        case 5:
e:          puts("e");
            continue;
        default:
            if (r) {
                r = f(2);
            } else
                break;
v:          puts("f");
        }
g:      puts("g");
    }
    do {
        r = f(0);
    } while (r > 9);
    for (n = 0; n < 2; n++)
        r = f(n);
    close(12);
    shared = close(n);
    shared = open("/dev/null", close(13));
    if (r)
        if (n)
h:          puts("h");
        else
i:          puts("i");
    close(fd);
    return 0;
}
""" % "".join("    %sif (n == %d)\nl%d:     puts(\"%d\");\n" % ("else " * (n > 10), n, n, n) for n in range(10, 30))
SPLIT_POLICY = 'format = 1\nsplit = ["sharing"]\n[[at]]\nlabel = "inside"\nnever = ["amb"]\n[[at]]\nlabel = "h"\nmust = ["amb"]\n'
GUARD_POLICY = 'format = 1\n[[descriptor]]\nname = "fd"\n[[at]]\nlabel = "c"\nnever = ["amb"]\n'


def part_guard(folder, long):
    """Each fault ends with a message and no file; without a fault the file is woven."""
    if not has_capweave():
        print("guard: skipped, capweave isn't there")
        return
    with open(SCRIPT) as file:
        script = file.read()
    os.chdir(folder)
    put(folder, "g.c", GUARDED)
    tree = None
    os.environ["CAPWEAVE"] = capweave()
    for what, old, new in [("no fault", "", "")] + FAULTS:
        if not told(old == "" or script.count(old) == 1, "the fault can be put in: " + what, script.count(old)):
            continue
        names = loaded(lambda text: text.replace(old, new) if old else text)
        if tree is None:
            tree = names["compiler_tree"](names["Source"]("g.c"), [])
        names["compiler_tree"] = lambda source, flags: tree
        put(folder, "g.woven.c", "older")
        put(folder, "g.toml", SPLIT_POLICY if "write" in what else GUARD_POLICY)
        run = called(names, ["weave", "g.toml", "g.c", "-o", "g.woven.c"])
        there = os.path.exists("g.woven.c")
        if old:
            told(run.returncode == 10 and not there and b"fault of capweave-outline" in run.stderr, "the guard finds: " + what, "status %d %s" % (run.returncode, run.stderr))
            continue
        told(run.returncode == 0 and there, "no fault: woven", run.stderr)
        texts = []
        with open("g.woven.c") as file:
            texts.append([line for line in file.read().split("\n") if not line.startswith("CW_LIVE")])
        names["MANY_POINTS"], names["MANY_BYTES"] = 6, 240
        called(names, ["weave", "g.toml", "g.c", "-o", "g.woven.c"])
        with open("g.woven.c") as file:
            texts.append([line for line in file.read().split("\n") if not line.startswith("CW_LIVE")])
        told(texts[0] == texts[1], "a thinned outline gives the same table and marks")
    os.chdir(HERE)


# ---------------------------------------------------------------------------------------------------------------------------------------
# Forms of C at the edges

EDGES = r"""#include <errno.h>
#include <stdarg.h>
#include <stdio.h>
#include <stdlib.h>
#include <string.h>
#include <fcntl.h>
#include <unistd.h>
#include <assert.h>
#include <ctype.h>
#define MAX(a, b) ((a) > (b) ? (a) : (b))
#define FOREVER for (;;)
#define FOREACH(var, count) for ((var) = 0; (var) < (count); (var)++)
#define RETURN_IF(x) do { if (x) return -1; } while (0)
typedef unsigned char byte;
typedef enum { RED, GREEN } colour;
struct pair { int a, b; struct { unsigned low : 3, high : 5; } bits; };
union any { int i; float f; };
static int fd = -1;
static int gd;
static int gd;
static int total, other, test_3;
static struct pair pairs[] = { { 1, 2, { 3, 4 } }, { .a = 3, .bits = { .high = 9 } } };
static const char *const names[] = { [RED] = "red", [GREEN] = "green" };
static double ratio = 0.5;
static struct pair make(int a, int b);
static void say(const char *format, ...) __attribute__((format(printf, 1, 2)));
static int old(a, b)
    int a;
    char *b;
{
    return a + (b != NULL);
}
static struct pair make(int a, int b)
<%
    struct pair p = { a, b, { 1, 2 } };
here:return p;
%>
static void say(const char *format, ...)
{
    va_list list;
    va_start(list, format);
    vprintf(format, list);
    va_end(list);
}
static inline int fact(int n) { int r; if (n < 2) return 1; r = fact(n - 1); return n * r; }
static byte small(byte b) { return b ^ 0x5a; }
static const char *name_of(colour c) { return names[c]; }
static int checked(int n) { RETURN_IF(n > 3); assert(n >= 0); return n; }
static int loops(int n)
{
    int i, k = 0;
    FOREACH(i, n) { l1:k += i; if (k > 40) break; else if (k == 3) continue; k++; }
    FOREVER { if (k-- < 0) break; l2: /* a label */ k -= 2; }
    do l3 /* between */ : k++; while (k < 3);
    for (int j = 0, m = 5; j < m; j++, m--) if (j) l4: k += j; else l5: k -= j;
    while (k > 100) k--; l6 : ; {} ;
    if (n) if (k) l7: n = checked(n); else l8: n = checked(1);
    switch (n) l9: case 1: l10: k++;
    switch (n) { case 0 ... 2: l11: k++; __attribute__((fallthrough)); case 7: { l12: k += 2; break; } default:; }
    return k;
}
static int shadow(int n)
{
    extern int gd;
    { int total = n; total++; n = total; }
    l13: __attribute__((unused)); n = \
fact(3); gd = n; return n;
}
int main(int argc, char **argv)
{
    register int r; int n = argc; static int calls; byte b; colour c = GREEN; union any any = { 1 }; struct pair p, *q = &p; char text[n + 9]; int list[3] = { 0 };
    float f = 1.5f; long long big = 1LL << 40; void *none = 0; int (*external)(const char *) = puts;
    calls++; (void)any; (void)big; (void)none; (void)f; other = test_3;
start:fd = open("/dev/null", O_RDONLY);
    if (fd < 0) exit(1);
    r = old(1, "x"); p = make(1, 2); q->a = fact(4); list[1] = fact(5); (q)->b = (int)fact(3); say("%d %d\n", q->a, list[1]);
    (void)fact(2); ((fact(3))); b = small((byte)n); r += b; (r) = fact(3); (say)("x %d\n", r); (*say)("y\n"); (&say)("z\n");
    external("external"); total = total ? : 3; total = n ? total : 2, r++; r = ({ int t = r; while (t > 100) t--; t; });
    r = loops(3); say("%d\n", r); r = loops(0); say("%d\n", r); r = loops(7); say("%d\n", r); r = shadow(3); say("%d\n", r);
    memcpy(text, &(int[]){ 7, 8 }[1], sizeof(int)); say("%s %d %g\n", name_of == 0 ? "" : "", text[0], ratio);
    const char *s; s = name_of(c); say("%s %d\n", s, _Generic(r, int: 1, default: 2));
    if (isdigit('3') && MAX(n, 1)) { errno = 0; say("%d\n", (int)sizeof(struct pair) > 0); }
    switch (n) { case 1: switch (r) { case 6: l14: say("in\n"); break; default: l15: say("other\n"); } break; case 2: l16: say("two\n"); }
    pairs[0].a = checked(2); say("%d\n", pairs[0].a + pairs[1].a);
%s
end:(void)close(fd); return 0; }
"""
EDGES = EDGES.replace('say("%s %d %g\\n", name_of == 0 ? "" : "", text[0], ratio);', 'say("%d %g\\n", text[0], ratio);').replace(
    "switch (n) l9: case 1: l10: k++;", "switch (n) case 1: l10: k++;")
CHAIN = "    " + " else ".join("if (n == %d) k%d: say(\"k%d\\n\");" % (number, number, number) for number in range(-40, 40)) .replace("k-", "km") + "\n"
CASES = "    switch (r) {" + "".join(" case %d: c%d: say(\"c%d\\n\");%s" % (number, number, number, " break;" if number % 3 else "") for number in range(150)) + " }\n"


def part_edges(folder, long):
    """One file with forms at the edges: outlined, woven, compiled by each compiler here, run; also with CRLF, and with a #line."""
    text = EDGES.replace("%s\nend", CHAIN + CASES + "end")
    forms = {"plain": text, "crlf": text.replace("\n", "\r\n"), "line": "#line 77 \"elsewhere.c\"\n" + text, "open end": text.rstrip("\n")}
    policy = 'format = 1\n[[descriptor]]\nname = "fd"\n[[limit]]\ndescriptor = "fd"\nkeep = ["CAP_READ"]\n[[at]]\nlabel = "%s"\nnever = ["amb", "fd:CAP_WRITE"]\n'
    compilers = [name for name in ("gcc", "clang") if shutil.which(name)]
    for number, (form, text) in enumerate(forms.items()):
        with open(os.path.join(folder, "e.c"), "w", newline="") as file:
            file.write(text)
        flags = ["-std=gnu11", "-D_GNU_SOURCE"]
        run = outline(["outline", "e.c", "-o", "e.outline.c", "--"] + flags, folder)
        if not told(run.returncode == 0, "edges, outline, " + form, run.stderr.decode()) or not has_capweave():
            continue
        with open(os.path.join(folder, "e.outline.c.json")) as file:
            places = json.load(file)
        with open(os.path.join(folder, "e.outline.c")) as file:
            lines = file.read().split("\n")
        seams = [seam for seam in places["seams"] if seam["kind"] in ("call", "open", "close")]
        told(len(seams) > 20 and all(re.match(r"%s\(|\w+ = |close\(" % seam["name"], lines[seam["outline"][0] - 1][seam["outline"][1] - 1:]) for seam in seams), "edges, places, " + form)
        told(all(seam["outline"][0] >= seam["source"][0] for seam in places["seams"]), "edges, lines of seams, " + form)
        for label in ["l%d" % number for number in range(1, 17) if number != 9] + ["end", "here", "k1", "c17"] if long else ["l12", "c17"] if not number else ["l12"]:
            put(folder, "e.toml", policy % label)
            run = outline(["weave", "e.toml", "e.c", "-o", "e.woven.c", "--"] + flags, folder)
            if not told(run.returncode == 0, "edges, weave %s, %s" % (label, form), run.stderr.decode()):
                continue
            told(outline(["same", "e.woven.c", "e.c"], folder).returncode == 0, "edges, same, " + form)
            for compiler in compilers if label in ("l12", "end") and (long or not number) else compilers[:long or number < 2]:
                plain = ran([compiler, "-w", "-o", "plain", "e.c"] + flags, folder)
                woven = ran([compiler, "-w", "-o", "woven", "e.woven.c"] + flags + ["-DCW_STANDIN", "-I" + EXAMPLES, os.path.join(EXAMPLES, "capweave.c")], folder)
                if not told(plain.returncode == 0 and woven.returncode == 0, "edges, %s, %s" % (compiler, form), (plain.stderr + woven.stderr).decode()[-800:]):
                    continue
                one, other = ran(["./plain"], folder), ran(["./woven"], folder)
                told(one.returncode == 0 and (one.stdout, one.stderr) == (other.stdout, other.stderr), "edges, run %s, %s, %s" % (label, compiler, form), "%r %r" % (one, other))


def part_page(folder, long):
    """The commands of docs/OUTLINE.md print what stands below them (--write writes the page anew)."""
    page = os.path.join(HERE, "..", "docs", "OUTLINE.md")
    if not has_capweave() or not os.path.exists(page):
        print("page: skipped, capweave isn't there")
        return
    sys.path.insert(0, os.path.dirname(page))
    import check_guide
    paths = os.path.join(folder, "bin")
    os.mkdir(paths)
    os.symlink(os.path.abspath(capweave()), os.path.join(paths, "capweave"))
    os.symlink(SCRIPT, os.path.join(paths, "capweave-outline"))
    work = os.path.join(folder, "work")
    os.mkdir(work)
    environment = dict(os.environ, PATH=paths + ":" + os.environ["PATH"], EXAMPLES=os.path.abspath(EXAMPLES), SAMPLES=os.path.join(HERE, "samples"))
    with open(page, encoding="utf-8") as file:
        text = file.read()

    def run(block):
        made = "```console\n"
        for command, printed in check_guide.commands(block[1]):
            done = subprocess.run(["bash", "-c", "\n".join(command)], cwd=work, env=environment, stdout=subprocess.PIPE, stderr=subprocess.STDOUT)
            lines = done.stdout.decode().splitlines()
            if "--write" not in sys.argv:
                told(lines == printed, "page: " + command[0], lines)
            made += "$ " + "\n".join(command) + "\n" + "".join(line + "\n" for line in lines)
        return made + "```\n"

    made = check_guide.BLOCK.sub(run, text)
    if "--write" in sys.argv:
        with open(page, "w", encoding="utf-8") as file:
            file.write(made)


def part_pairs(folder, long):
    """Random files of the subset with random policies: the outline gets the status that `capweave weave` gives the file itself, and the same table and marks."""
    if not has_capweave():
        print("pairs: skipped, capweave isn't there")
        return
    sys.path.insert(0, os.path.join(HERE, "..", "bench"))
    from making import Maker
    os.chdir(folder)
    os.environ["CAPWEAVE"] = capweave()
    names = loaded()
    counts = {}
    wrong = 0
    until = time.time() + SHARE
    for splits in (False, True):
        maker = Maker(random.Random(7 if splits else 3), splits)
        for number in range(500 if long else 12):
            if not long and time.time() > until:
                break
            policy, text = maker.pair()
            put(folder, "p.toml", policy)
            put(folder, "p.c", "extern int c;int open_it(void);int close(int);void put(int *p);\n" + text)
            direct = ran([capweave(), "weave", "p.toml", "p.c"], folder)
            run = called(names, ["weave", "p.toml", "p.c", "-o", "mine.c"])
            same = direct.returncode == run.returncode
            if same and run.returncode == 0:
                with open(os.path.join(folder, "mine.c"), "rb") as file:
                    mine = file.read()
                have = [line for line in mine.split(b"\n") if not line.startswith((b"CW_LIVE", b"#line"))]
                same = have == [line for line in direct.stdout.split(b"\n") if not line.startswith(b"CW_LIVE")]
            if not same:
                wrong += 1
                told(False, "pair %d %s" % (number, splits), "%d %s %d %s\n%s" % (direct.returncode, direct.stderr.decode(), run.returncode, run.stderr.decode(), text))
                keep(folder, "pair%d%s" % (number, splits))
            counts[run.returncode] = counts.get(run.returncode, 0) + 1
            gc.collect()
    os.chdir(HERE)
    told(wrong == 0, "random files of the subset", str(counts))
    print("pairs: %s" % counts)


SPLIT_CALLS = 'format = 1\nsplit = ["pure_1"]\n[[at]]\nlabel = "pure_lab"\nnever = ["amb"]\n[[at]]\nlabel = "%s"\nmust = ["amb"]\n'
SIMPLE = 'format = 1\n[[at]]\nlabel = "%s"\nnever = ["amb"]\n'


def keep(folder, seed):
    place = os.environ.get("OUTLINE_KEEP")
    if place:
        shutil.copytree(folder, os.path.join(place, "seed%s" % seed), dirs_exist_ok=True)


def capweave():
    """The program, found as capweave-outline finds it, or None."""
    places = [os.path.join(HERE, "capweave"), os.path.join(HERE, "..", "crates", "capweave", "out", "capweave")]
    return os.environ.get("CAPWEAVE") or next((os.path.abspath(place) for place in places if os.path.exists(place)), None) or shutil.which("capweave")


def has_capweave():
    return capweave() is not None


def alone(name, long):
    """Runs a part in a folder of its own."""
    folder = tempfile.mkdtemp(prefix="outline_tests.")
    begun = time.time()
    try:
        globals()["part_" + name](folder, long)
    finally:
        shutil.rmtree(folder, ignore_errors=True)
    print("%s: %.1f s" % (name, time.time() - begun), flush=True)


def main(words):
    if shutil.which(os.environ.get("CAPWEAVE_CLANG") or "clang") is None:
        print("outline: skipped, clang isn't there")
        return 0
    if not has_capweave() and "--only" not in words:
        print("outline: capweave isn't there, so only outlines are tried")
    long = "--long" in words
    if "--only" in words:
        for name in words[words.index("--only") + 1:]:
            if name not in ("--write", "--long"):
                alone(name, long)
        print("outline: %d passed, %d failed" % (passed, len(failed)))
        return 1 if failed else 0
    # each part in a process of its own, some of them at once
    counts = [0, 0]

    def part(name):
        run = subprocess.run([sys.executable, os.path.abspath(__file__)] + ["--long"] * long + ["--only", name], stdout=subprocess.PIPE, stderr=subprocess.STDOUT)
        lines = run.stdout.decode("utf-8", "replace").splitlines()
        last = re.match(r"outline: (\d+) passed, (\d+) failed$", lines[-1] if lines else "")
        print("\n".join(lines[:-1] if last else lines + ["failed: %s ended with status %d" % (name, run.returncode)]), flush=True)
        return (int(last.group(1)), int(last.group(2))) if last else (0, 1)

    with concurrent.futures.ThreadPoolExecutor(1 if long else 4) as pool:
        for good, bad in pool.map(part, PARTS):
            counts[0] += good
            counts[1] += bad
    print("outline: %d passed, %d failed" % tuple(counts))
    return 1 if counts[1] else 0


PARTS = ["samples", "guard", "refusals", "edges", "flow", "pairs", "csmith", "examples", "page", "big"]       # the longest first
SHARE = 12      # seconds that a part with random programs may take in the short form


def begin():
    status.append(main(sys.argv[1:]))


status = []
if __name__ == "__main__":
    # the walks of the script go deep where they are called from here
    sys.setrecursionlimit(100000)
    threading.stack_size(256 << 20)
    thread = threading.Thread(target=begin)
    thread.start()
    thread.join()
    sys.exit(status[0] if status else 1)
