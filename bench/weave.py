#!/usr/bin/env python3
"""Times the program on sources and policies that it makes, at growing sizes, and prints processor milliseconds, memory and how both grow.

    python3 bench/weave.py crates/capweave/out/capweave [--command graph] [--against "COMMAND"]

With `weave`, the default: random sources of the whole C subset and one with long names, of three lengths; random sources and dense ones
that are refused at their last byte, so that their tokens and their program are read and nothing else is done; sources of the first form
with branches and loops, of three numbers of points; and policies of three lengths. With `graph`: random sources, and ones of 512 functions of
up to 8,192 points in all. The other command gets a source's name behind its words and is run in turn with the program, as
--against "gcc -fsyntax-only -std=c11 -w".

The milliseconds are the least of several runs', of the child and what it starts. The memory is the greatest resident size of the child alone:
a shell starts it and ends at once, and the system hands the child to this script. A growth is the ratio to the row before, of half the
size. Nothing is written but in a temporary folder. Needs Linux, Python 3.8 and no package.
"""
import argparse
import ctypes
import os
import random
import shlex
import tempfile

import sources

RUNS = 7
BYTES = (65_536, 131_072, 262_144)
ADOPTS_ORPHANS = 36  # prctl(2): PR_SET_CHILD_SUBREAPER
POLICY = 'format = 1\n[[at]]\nlabel = "served"\nnever = ["amb"]\n[[at]]\nlabel = "opened"\nmust = ["amb"]\n'
SHORT = "int main(void){opened:;served:;return 0;}"


def subset(size):
    """A random source of the whole subset, of so many bytes or a few less."""
    length = 0.98 * size
    text = sources.source(random.Random(1), length, 100)
    while len(text) > size:
        length *= 0.95
        text = sources.source(random.Random(1), length, 100)
    return text


def long_names(size):
    """Some 1,000 calls of functions with long names."""
    head, tail, calls = "int main(void){opened:;", "served:;return 0;}", 1_000
    width = (size - len(head) - len(tail)) // calls - len("();")
    return head + "".join(f"f{number:0{width - 1}d}();" for number in range(calls)) + tail


def refused(size):
    """A random source whose last brace no program goes on with."""
    return subset(size - 1) + "}"


def dense(size):
    """Statements of two bytes, and a last brace that no program goes on with."""
    head, tail = "int main(void){", "}}"
    return head + "1;" * ((size - len(head) - len(tail)) // 2) + tail


def first_form(points):
    """Branches and loops around calls, of about so many points."""
    parts = [f"if(c{number}){{while(d{number})f{number}();}}else g{number}();h{number}();" for number in range(points // 5)]
    return "int main(void){opened:;" + "".join(parts) + "served:;return 0;}"


def many_functions(points):
    """512 functions, each of which calls the one before, of so many points in all."""
    each = points // 512 - 2  # a function's entry and its exit are points too
    parts = ["void f0(void){" + "1;" * each + "}"]
    parts += [f"void f{number}(void){{f{number - 1}();" + "1;" * (each - 1) + "}" for number in range(1, 511)]
    return "\n".join(parts) + "\nint main(void){" + "1;" * (each - 1) + "return 0;}"


def long_policy(size):
    """A policy of so many bytes, of long names and comments."""
    names = "".join(f'[[rule]]\nname = "{"r" * (size // 80)}{number}"\nbad = "served opened"\n' for number in range(20))
    return POLICY + names + "#" * (size - len(POLICY) - len(names))


TABLES = {
    "weave": (("source", subset, BYTES), ("names", long_names, BYTES), ("refused", refused, BYTES), ("dense", dense, BYTES), ("points", first_form, (250, 500, 1_000)), ("policy", long_policy, (16_384, 32_768, 65_536))),
    "graph": (("source", subset, (16_384, 32_768, 65_536)), ("points", many_functions, (2_048, 4_096, 8_192))),
}


def waited(child):
    """What a child used, and its status."""
    _, ended, usage = os.wait4(child, 0)
    return usage, os.WEXITSTATUS(ended) if os.WIFEXITED(ended) else -os.WTERMSIG(ended)


def milliseconds(words):
    quiet = [(os.POSIX_SPAWN_OPEN, number, os.devnull, os.O_WRONLY, 0) for number in (1, 2)]
    usage, _ = waited(os.posix_spawnp(words[0], words, os.environ, file_actions=quiet))
    return (usage.ru_utime + usage.ru_stime) * 1_000


def memory(words):
    """The KiB and the status of a child that a shell has started."""
    shell = ["sh", "-c", '"$@" >/dev/null 2>&1 &', "sh", *words]
    waited(os.posix_spawnp("sh", shell, os.environ))
    usage, status = waited(-1)
    return usage.ru_maxrss, status


def main():
    parser = argparse.ArgumentParser(description=__doc__, formatter_class=argparse.RawDescriptionHelpFormatter)
    parser.add_argument("program")
    parser.add_argument("--command", choices=TABLES, default="weave")
    parser.add_argument("--against")
    asked = parser.parse_args()
    ctypes.CDLL(None).prctl(ADOPTS_ORPHANS, 1, 0, 0, 0)
    for title, make, sizes in TABLES[asked.command]:
        print(f"{title:>8} {'command':>16} {'ms':>9} {'growth':>7} {'KiB':>8} {'growth':>7} status")
        before = {}
        for size in sizes:
            with tempfile.TemporaryDirectory() as folder:
                policy, source = os.path.join(folder, "policy.toml"), os.path.join(folder, "source.c")
                is_policy = make is long_policy
                for name, text in ((policy, make(size) if is_policy else POLICY), (source, SHORT if is_policy else make(size))):
                    with open(name, "w") as file:
                        file.write(text)
                commands = [[asked.program, asked.command] + ([policy] if asked.command == "weave" else []) + [source]]
                commands += [shlex.split(asked.against) + [source]] if asked.against and not is_policy else []
                times = [min(row) for row in zip(*([milliseconds(words) for words in commands] for _ in range(RUNS)))]
                for words, spent in zip(commands, times):
                    kib, status = memory(words)
                    name = os.path.basename(words[0])
                    old = before.get(name)
                    growth = (f"{spent / old[0]:.2f}", f"{kib / old[1]:.2f}") if old else ("", "")
                    before[name] = (spent, kib)
                    print(f"{size:8} {name:>16} {spent:9.2f} {growth[0]:>7} {kib:8} {growth[1]:>7} {status:6}", flush=True)


if __name__ == "__main__":
    main()
