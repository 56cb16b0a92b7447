#!/usr/bin/env python3
"""The header against the model: random programs are woven, compiled with the header over a kernel that answers from a tape, and run; what happens has to be
what `capweave run` prints for the same answers, line by line.

    python3 examples/model.py [--programs 1000] [--seed 1] [--tapes 4] [--keep FOLDER] [CAPWEAVE]

CAPWEAVE is the program; without it that of the environment's variable CAPWEAVE, and else crates/capweave/out/capweave. The programs have calls, also
recursive ones and such in processes of their own, opens and closes, limits, refusals and stops. The kernel (tests/tape.c) has its own books of capability
mode and rights. Where something differs the program, its policy and both traces are shown, and the status is 1. Needs a Unix with a C compiler, Python 3.8
and no package.
"""
import argparse
import concurrent.futures
import os
import random
import re
import shutil
import subprocess
import sys
import tempfile

HERE = os.path.dirname(os.path.abspath(__file__))
RIGHTS = ["CAP_READ", "CAP_WRITE", "CAP_SEEK", "CAP_FSTAT", "CAP_FTRUNCATE", "CAP_FSYNC", "CAP_FCNTL", "CAP_IOCTL", "CAP_EVENT", "CAP_ACCEPT", "CAP_LISTEN", "CAP_LOOKUP"]
BATCH = 100


class Made:
    """A program: its text, and what stands at each point, in the order of the points."""

    def __init__(self, chance):
        self.chance = chance
        self.variables = chance.sample(["fd", "gd", "hd"], chance.randint(0, 3))
        self.functions = ["f", "g", "h", "k"][: chance.randint(0, 4)]
        self.pure = {name for name in self.functions if chance.random() < 0.6}
        self.gives = {name: chance.random() < 0.6 for name in self.functions}
        self.points, self.labels, self.inside = [], [], None
        self.text = "int branch(void);\nvoid tick(void);\nvoid same(long value);\nint given(int value);\nint open_it(void);\nint close(int d);\n"
        self.text += "".join("static int %s = -1;\n" % name for name in self.variables)
        self.text += "".join("static %s %s(int x);\n" % ("int" if self.gives[name] else "void", name) for name in self.functions)
        for name in self.functions:
            self.function(name)
        self.function("main")

    def function(self, name):
        self.inside, self.names, self.depth = name, iter("abcdeopqrst"), 0
        self.points.append("entry")
        head = "int main(void)" if name == "main" else "static %s %s(int x)" % ("int" if self.gives[name] else "void", name)
        kind = self.chance.choice(["int", "long"])
        self.points += ["step", "step"]
        self.text += head + "{%s n = 0; int m = %s;" % (kind, "x" if name != "main" else "3")
        self.text += self.statements(3 if name == "main" else 2, False)
        if name == "main":
            self.points.append("step")
            self.text += "return 0;"
        elif self.gives[name]:
            self.points.append("step")
            self.text += "return n + m;"
        self.text += "}\n"
        self.points.append("exit")

    def statements(self, depth, looped):
        return "".join(self.statement(depth, looped) for _ in range(self.chance.randint(1, 4)))

    def called(self):
        """The functions that may be called here: what is to be split reaches nothing that isn't."""
        return [name for name in self.functions if name in self.pure or self.inside not in self.pure]

    def put(self, point, text):
        self.points.append(point)
        return text

    def statement(self, depth, looped):
        chance = self.chance
        pure = self.inside in self.pure
        kind = chance.randint(0, 17)
        if kind <= 4:
            name = next(self.names, None)
            if name is not None:
                name += self.inside[0] if chance.random() < 0.8 else ""
                self.labels.append((name, self.inside))
                self.points.append("label")
                return "%s:" % name + (self.put("step", ";") if chance.random() < 0.4 else self.statement(depth, looped))
        elif kind == 5 and depth:
            self.points.append("branch")
            return "if(branch()){%s}else{%s}" % (self.statements(depth - 1, looped), self.statements(depth - 1, looped))
        elif kind == 6 and depth:
            self.points.append("branch")
            return "if(branch())" + ("{%s}" % self.statements(depth - 1, looped) if chance.random() < 0.5 else self.statement(depth - 1, looped))
        elif kind == 7 and depth:
            self.points.append("branch")
            return "while(branch()){%s}" % self.statements(depth - 1, True)
        elif kind == 8 and depth:
            text = "do{%s}while(branch());" % self.statements(depth - 1, True)
            self.points.append("branch")
            return text
        elif kind == 9 and depth:
            init = chance.choice(["", "m=0"])
            test = chance.random() < 0.7
            step = "" if test and chance.random() < 0.5 else "tick()"
            self.points += (["step"] if init else []) + ["branch" if test else "step"] + (["tick"] if step else [])
            text = "for(%s;%s;%s){" % (init, "branch()" if test else "", step)
            if not test:
                self.points.append("tick")
                text += "tick();"
            return text + self.statements(depth - 1, True) + "}"
        elif kind in (10, 11, 12) and self.called():
            name = chance.choice(self.called())
            self.points.append("call " + name)
            argument = chance.choice(["1", "m", "m + 2"])
            if self.gives[name] and chance.random() < 0.7:
                self.points.append("step")
                return "{n=%s(%s);same(n);}" % (name, argument)
            return "%s(%s);" % (name, argument)
        elif kind in (13, 14) and self.variables and not pure:
            name = chance.choice(self.variables)
            self.points.append("open " + name)
            return "%s=open_it();" % name
        elif kind == 15 and not pure:
            name = chance.choice(self.variables + ["0", "1"])
            self.points.append("close " + name)
            return "close(%s);" % name
        elif kind == 16 and looped and chance.random() < 0.6:
            return self.put("step", chance.choice(["break;", "continue;"]))
        elif kind == 17 and chance.random() < 0.3 and depth < 3:
            self.points += ["branch", "step"]
            return "if(branch())return%s;" % ("" if self.inside != "main" and not self.gives[self.inside] else " 1")
        return self.put("step", chance.choice([";", "m=m+1;", "n=given(m);"]))


def policy_of(chance, made):
    """A policy that often can be met: what is never to be held can be given up, and what must be is asked for early."""
    names = [name for name in made.variables if chance.random() < 0.8] + [name for name in ("0", "1") if chance.random() < 0.35]
    split = [name for name in made.functions if name in made.pure and chance.random() < 0.8]
    refusable = [kind for kind in ("limit", "enter", "split") if chance.random() < 0.3]
    stop = bool(refusable) and chance.random() < 0.9
    listed = lambda some: "[%s]" % ", ".join('"%s"' % one for one in some)
    text = "format = %d\n" % chance.choice([1, 1, 2])
    text += "refusable = %s\n" % listed(refusable) if refusable else ""
    text += "split = %s\n" % listed(split) if split else ""
    text += 'on_refusal = "stop"\n' if stop else ""
    rights = {}
    for name in names:
        some = sorted(chance.sample(RIGHTS, chance.randint(1, 4)), key=RIGHTS.index) if chance.random() < 0.6 else RIGHTS
        rights[name] = some
        text += '[[descriptor]]\nname = "%s"\n' % name + ("rights = %s\n" % listed(some) if some is not RIGHTS else "")
    for name in names:
        for size in (0, 1, 2):
            if chance.random() < 0.45:
                text += '[[limit]]\ndescriptor = "%s"\nkeep = %s\n' % (name, listed(chance.sample(rights[name], min(size, len(rights[name])))))
    held = ["%s:%s" % (name, chance.choice(rights[name])) for name in names for _ in (1, 2)]
    labels = sorted({name for name, _ in made.labels})
    # what a process of its own is for: nothing ambient within, all of it without
    within, without = [sorted({name for name, function in made.labels if (function in split) == there}) for there in (True, False)]
    if within and without and chance.random() < 0.9:
        text += '[[at]]\nlabel = "%s"\nnever = %s\n' % (chance.choice(within), listed(chance.choice([["amb"], chance.sample(["amb"] + held, min(2, 1 + len(held)))])))
        text += '[[at]]\nlabel = "%s"\nmust = ["amb"]\n' % chance.choice(without)
    for _ in range(chance.randint(within == [], 3 - 2 * (within != [])) if labels else 0):
        never = chance.random() < 0.75
        text += '[[at]]\nlabel = "%s"\n%s = %s\n' % (chance.choice(labels), "never" if never else "must", listed(chance.sample(["amb"] + held, 1 if not never else min(2, 1 + len(held)))) if never or not held else listed(["amb"]))
    if labels and chance.random() < 0.4:
        text += '[[rule]]\nname = "r"\nbad = ".* %s .* %s[%s]"\n' % (chance.choice(labels), chance.choice(labels), chance.choice(["amb"] + held))
    masks = [(name, sum(1 << RIGHTS.index(right) for right in rights[name])) for name in names]
    return text, masks, sum(bit for kind, bit in (("enter", 1), ("limit", 2), ("split", 4)) if kind in refusable)


MARK = r"/\*cw\{\*/%s/\*\}cw\*/"


def with_tales(woven):
    """A woven text that tells what it does: behind each mark of a label, and around each call, open and close that has a mark."""
    woven = re.sub(r"(\w+):" + MARK % r"(CW_LABEL\(\d+\))", r'\1:/*cw{*/\2/*}cw*/if (tape_label("\1"), 0) { } else ', woven)
    woven = re.sub(MARK % r"(CW_OPEN\(\d+,(\w+)\))" + r"\w+=open_it\(\);", r'\1 \2=tape_open("\2");', woven)
    woven = re.sub(MARK % r"(CW_CLOSE\(\d+\))" + r"close\((\w+)\);", r'\1 tape_close("\2", \2);', woven)
    woven = re.sub(MARK % r"(CW_CALLV\(\d+,n\))" + r"n=(\w+)(\([^()]*\));", r'\1 n=(tape_call("\2"), tape_return("\2", \2\3));', woven)
    return re.sub(MARK % r"(CW_CALL\(\d+\))" + r"(\w+)(\([^()]*\));", r'\1 tape_call("\2"), \2\3, (void)tape_return("\2", 0);', woven)


def seams_of(woven):
    """The seam of each entry, label and call, in the order of the points."""
    found = {"entry": [], "label": [], "call": []}
    for kind, number in re.findall(r"/\*cw\{\*/CW_(ENTRY|LABEL|CALL)V?\((\d+)", woven):
        found[kind.lower()].append(int(number))
    return found


class Program:
    """A woven program, with its graph; `walk` makes the tape of `run` of what has happened."""

    def __init__(self, number, made, policy, masks, refusable):
        self.number, self.made, self.policy, self.masks, self.refusable = number, made, policy, masks, refusable
        self.names = {name for name, _ in masks}

    def read_graph(self, text):
        lines = text.splitlines()
        count = int(lines[0].split()[1])
        self.entries = {line.split()[1]: int(line.split()[2]) for line in lines if line.startswith("function ")}
        self.next, kinds = [], []
        for line in lines[len(lines) - count:]:
            head, _, tail = line.partition(" ->")
            kinds.append(head.split()[2])
            self.next.append([int(word) for word in tail.split()])
        own = [point.split()[0] for point in self.made.points]
        assert kinds == [{"open": "step", "close": "step", "tick": "step"}.get(kind, kind) for kind in own], (kinds, own)

    def take_woven(self, woven):
        self.woven = woven
        found = {kind: iter(some) for kind, some in seams_of(woven).items()}
        self.seams = [next(found[kind]) if (kind := point.split()[0]) in found else None for point in self.made.points]

    def walk(self, events):
        """The entries of the tape by which `run` does the same, as far as something happened; each event in its place."""
        words, stack, point, at = [], [], self.entries["main"], 0
        while True:
            kind, _, name = self.made.points[point].partition(" ")
            while at < len(events) and self.seams[point] is not None and events[at].startswith("try %d " % self.seams[point]):
                words.append("grant" if events[at].endswith("granted") else "refuse")
                at += 1
            held = kind == "open" and name in self.names or kind == "close" and name in self.names
            if kind in ("label", "branch", "tick", "call") or held or (kind == "exit" and stack):
                if at == len(events):
                    return words
                event = events[at]
                at += 1
            if kind == "branch":
                words.append(event[1:])
                point = self.next[point][event == ".right"]
            elif kind == "call":
                words.append("on")
                stack.append(self.next[point][0])
                point = self.entries[name]
            elif kind == "exit":
                words.append("on")
                if not stack:
                    return words
                point = stack.pop()
            else:
                words.append(event.split()[2] if kind == "open" and held else "on")
                point = self.next[point][0]


class Model:
    def __init__(self, options, folder):
        self.program = os.path.abspath(options.program)
        self.folder, self.options = folder, options
        self.compilers = [compiler for compiler in ("gcc", "clang", "cc") if shutil.which(compiler)][:2]
        self.counts = {"tapes": 0, "lines": 0, "splits": 0, "stops": 0, "limits": 0, "opens": 0, "ended": 0, "refused": 0}

    def command(self, *words):
        return subprocess.run([self.program, *words], cwd=self.folder, stdout=subprocess.PIPE, stderr=subprocess.PIPE, text=True)

    def write(self, name, text):
        with open(os.path.join(self.folder, name), "w") as file:
            file.write(text)
        return name

    def one(self, number):
        """A program that can be woven, made from its number."""
        for attempt in range(1000):
            chance = random.Random("%d.%d.%d" % (self.options.seed, number, attempt))
            made = Made(chance)
            program = Program(number, made, *policy_of(chance, made))
            policy, source = self.write("%d.toml" % number, program.policy), self.write("%d.c" % number, made.text)
            done = self.command("weave", policy, source)
            if done.returncode == 1 or (done.returncode == 5 and done.stderr.startswith("limit: ")):
                continue
            if done.returncode != 0:
                raise RuntimeError("program %d isn't woven: %d %s%s%s" % (number, done.returncode, done.stderr, program.policy, made.text))
            # most programs should try something, and many a process of their own
            if "CW_TRY" not in done.stdout and chance.random() < 0.85:
                continue
            if not re.search(r"CW_INTO\(\d+,1,", done.stdout) and chance.random() < 0.6:
                continue
            program.take_woven(done.stdout)
            self.write("%d.woven.c" % number, done.stdout)
            program.read_graph(self.command("graph", source).stdout)
            tapes = ["".join(chance.choice("0123456789") for _ in range(chance.choice([3, 10, 30, 80]))) for _ in range(self.options.tapes)]
            return program, tapes
        raise RuntimeError("no program %d in 1000 can be woven" % number)

    def compiled(self, batch, programs):
        """One binary of some programs."""
        text = '#include "tape_programs.h"\n#include "capweave.h"\n'
        for program in programs:
            names = ["main", "cw_table"] + program.made.functions + program.made.variables
            text += "#undef CW_LIMITS\n" + "".join("#define %s p%d_%s\n" % (name, program.number, name) for name in names)
            text += with_tales(program.woven) + "\n" + "".join("#undef %s\n" % name for name in names)
        text += "const struct tape_program tape_programs[] = {\n"
        for program in programs:
            text += "    { p%d_main, %d, %d, { %s }, { %s }, { %s } },\n" % (
                program.number, program.refusable, len(program.masks), ", ".join('"%s"' % name for name, _ in program.masks) or '""',
                ", ".join(name if name.isdigit() else "-1" for name, _ in program.masks) or "0", ", ".join("0x%x" % mask for _, mask in program.masks) or "0")
        source = self.write("batch%d.c" % batch, text + "};\n")
        compiler = self.compilers[batch % len(self.compilers)]
        out = os.path.join(self.folder, "batch%d" % batch)
        flags = ["-std=c11", "-O0", "-w", "-I", HERE, "-I", os.path.join(HERE, "tests")] + (["-D_DEFAULT_SOURCE"] if sys.platform.startswith("linux") else [])
        done = subprocess.run([compiler, *flags, '-DCW_KERNEL="tests/tape.h"', "-o", out, source, os.path.join(HERE, "tests/tape.c"), os.path.join(HERE, "capweave.c")],
                              cwd=self.folder, stdout=subprocess.PIPE, stderr=subprocess.STDOUT, text=True)
        if done.returncode != 0:
            raise RuntimeError("batch %d: %s" % (batch, done.stdout[:2000]))
        return out

    def batch(self, batch, numbers):
        made = [self.one(number) for number in numbers]
        programs = [program for program, _ in made]
        jobs = [(place, tape) for place, (_, tapes) in enumerate(made) for tape in tapes]
        binary = self.compiled(batch, programs)
        done = subprocess.run([binary], input="".join("%d %s\n" % job for job in jobs), stdout=subprocess.PIPE, text=True, timeout=600)
        told = done.stdout.split(".end\n")[:-1]
        if len(told) != len(jobs):
            raise RuntimeError("batch %d answered %d of %d tapes" % (batch, len(told), len(jobs)))
        counts = [self.compare(programs[place], tape, text) for (place, tape), text in zip(jobs, told)]
        for name in [] if self.options.keep else ["%d.%s" % (number, kind) for number in numbers for kind in ("toml", "c", "woven.c", "tape")]:
            os.remove(os.path.join(self.folder, name))
        return counts

    def compare(self, program, tape, text):
        head, _, rest = text.partition("\n")
        status = int(head.split()[0])
        body, _, note = rest.partition(".note ")
        events = body.splitlines()
        words = program.walk(events)
        name = self.write("%d.tape" % program.number, " ".join(words) + "\n")
        done = self.command("run", "%d.toml" % program.number, "%d.woven.c" % program.number, name)
        lines = [line for line in events if not line.startswith(".")]
        printed = done.stdout.splitlines()
        if status == 98:        # it was stopped after so many lines, in the middle of one or not
            lines.pop()
            printed = printed[: len(lines)]
        stop = re.fullmatch(r"capweave: seam (\d+): (enter|limit \d+|split) refused: .*\n", note)
        if stop and status in (71, 72):
            lines += ["stop " + stop[1], "ended"]
        elif status == 99:
            lines.append("tape spent")
        elif note.strip() or status not in (0, 1, 98):
            lines.append("status %d, %s" % (status, note.strip()))
        elif status != 98:
            lines.append("ended")
        if lines != printed or done.stderr:
            raise RuntimeError("program %d differs\n--- policy\n%s--- source\n%s--- answers %s\n--- tape\n%s\n--- it did\n%s\n--- run prints\n%s%s" % (
                program.number, program.policy, program.made.text, tape, " ".join(words), "\n".join(lines), done.stdout, done.stderr))
        return {"tapes": 1, "lines": len(lines), "splits": sum(line.endswith(" split") for line in lines), "stops": bool(stop), "opens": sum(line.startswith("open ") for line in lines),
                "limits": sum(" limit" in line for line in lines), "ended": lines[-1] == "ended", "refused": sum(line.endswith(" refused") for line in lines)}


def main():
    parser = argparse.ArgumentParser(description=__doc__, formatter_class=argparse.RawDescriptionHelpFormatter)
    parser.add_argument("program", nargs="?", default=os.environ.get("CAPWEAVE") or os.path.join(HERE, "../crates/capweave/out/capweave"))
    parser.add_argument("--programs", type=int, default=1000)
    parser.add_argument("--seed", type=int, default=1)
    parser.add_argument("--tapes", type=int, default=4)
    parser.add_argument("--keep")
    options = parser.parse_args()
    with tempfile.TemporaryDirectory() as folder:
        model = Model(options, options.keep or folder)
        batches = [range(first, min(first + BATCH, options.programs)) for first in range(0, options.programs, BATCH)]
        with concurrent.futures.ThreadPoolExecutor(min(4, os.cpu_count() or 1)) as pool:
            pending = [pool.submit(model.batch, batch, numbers) for batch, numbers in enumerate(batches)]
            try:
                for done in concurrent.futures.as_completed(pending):
                    for counts in done.result():
                        for name, count in counts.items():
                            model.counts[name] += count
            except RuntimeError as error:
                for one in pending:
                    one.cancel()
                print("model: seed %d: %s" % (options.seed, error))
                return 1
    counts = model.counts
    print("model: seed %d: %d programs, %d tapes, %d lines, none differs; %d runs to the end, %d stops, %d calls in a process of their own, %d limits, %d refusals, %d opens" % (
        options.seed, options.programs, counts["tapes"], counts["lines"], counts["ended"], counts["stops"], counts["splits"], counts["limits"], counts["refused"], counts["opens"]))
    return 0


if __name__ == "__main__":
    sys.exit(main())
