#!/usr/bin/env python3
"""Tries what ./weave prints, in which order and with which status, over a stand-in for `rt` that proves nothing and takes no time.

    python3 docs/check_weave.py

The stand-in answers `rt try` with a text, and builds a program that writes it too; it fails, differs or waits where a try asks for that. The last line
counts the tries, and the status is 1 where one is wrong. Needs Python 3.8 and no package.
"""
import os
import re
import shutil
import signal
import subprocess
import sys
import tempfile
import time

ROOT = os.path.dirname(os.path.dirname(os.path.abspath(__file__)))
RT = r"""#!/bin/sh
here=$(basename "$PWD")
case $1 in
try)
    [ "$MODE" = lost ] && { echo "rt: no memory" >&2; exit 1; }
    echo "the text"
    printf 'a line\nchecked: ended status=0\n\nrun=ended status=0 runners=1 proved=no\n' >&2 ;;
check)
    [ "$MODE $here" = "fails cw_model" ] && { printf 'checked 3 functions\nso far: 1\nthe goal f/total is open: an error\n'; exit 1; }
    [ "$MODE $here" = "waits cw_model" ] && { touch "$WAITS"; exec sleep 60; }
    echo "a line about thiserror" ;;
run)
    mkdir -p out
    printf '#!/bin/sh\necho "%s"\n' "$([ "$MODE" = differs ] && echo other || echo the text)" >out/capweave
    chmod +x out/capweave ;;
esac
"""
FIRST = "status 0: the answer of the program as it runs with checks. It isn't proved yet; the proofs go on"


def made(folder):
    """A tree with ./weave in it, and the stand-in on its path: the crates of the program."""
    os.makedirs(os.path.join(folder, "bin"))
    with open(os.path.join(folder, "bin", "rt"), "w", encoding="ascii") as file:
        file.write(RT)
    os.chmod(os.path.join(folder, "bin", "rt"), 0o755)
    for name in ("weave", "crates.txt"):
        shutil.copy(os.path.join(ROOT, name), folder)
    with open(os.path.join(folder, "crates.txt"), encoding="utf-8") as lines:
        names = [line.split("#")[0].partition(":")[0].split()[0] for line in lines if ":" in line.split("#")[0]]
    for name in names:
        os.makedirs(os.path.join(folder, "crates", name))
    for name in ("p", "s"):
        open(os.path.join(folder, name), "w").close()


def begun(folder, mode, words=("p", "s")):
    environment = dict(os.environ, PATH=os.path.join(folder, "bin") + ":/usr/bin:/bin", MODE=mode, WAITS=os.path.join(folder, "waits"))
    # (what runs in a shell's background ignores the stop from the keyboard)
    return subprocess.Popen([sys.executable, os.path.join(folder, "weave")] + list(words), cwd=folder, env=environment, stdin=subprocess.DEVNULL,
                            stdout=subprocess.PIPE, stderr=subprocess.PIPE, universal_newlines=True, preexec_fn=lambda: signal.signal(signal.SIGINT, signal.SIG_DFL))


def ended(child):
    try:
        out, told = child.communicate(timeout=60)
    except subprocess.TimeoutExpired:
        child.kill()
        out, told = child.communicate()
    return child.returncode, out, told.splitlines() or [""] * (child.returncode != 0)


def wrong_order(told):
    """Whether the lines are the first one, one for each crate that counts down to none, the line of the first answer and what the program says there, and the end."""
    crates = [line for line in told if line.startswith("proved ")]
    left = [int(re.fullmatch(r"proved \w+, (\d+) left", line)[1]) for line in crates]
    others = [line for line in told if not line.startswith("proved ")]
    return not (len(told) > 3 and left == list(range(len(crates)))[::-1] and crates[-1].startswith("proved capweave,") and re.match(r"first an answer .* %d crates are proved" % len(crates), told[0])
                and others[1:] == ["a line", FIRST, "the proved program has the same answer"])


def tries():
    """Each try: its name, and what is wrong or nothing."""
    with tempfile.TemporaryDirectory(prefix="weave-") as top:
        folder = os.path.join(top, "tree")
        os.mkdir(folder)
        made(folder)
        anew = lambda: shutil.rmtree(os.path.join(folder, "crates", "capweave", "out"), ignore_errors=True)
        yield "too few words", ended(begun(folder, "", ["p"])) != (2, "", ["usage: ./weave POLICY SOURCE"])
        yield "no such file", ended(begun(folder, "", ["p", "none"])) != (6, "", ["read: none"])
        status, out, told = ended(begun(folder, ""))
        yield "from nothing", (status, out) != (0, "the text\n") or wrong_order(told)
        yield "once it is built", ended(begun(folder, "")) != (0, "the text\n", [])
        anew()
        status, out, told = ended(begun(folder, "differs"))
        yield "another answer", (status, out, told[-1]) != (70, "the text\n", "the proved program has another answer, with status 0: run this again")
        anew()
        status, out, told = ended(begun(folder, "lost"))
        yield "no first answer", (status, out) != (0, "the text\n") or "no first answer (rt try: rt: no memory); the proofs go on" not in told
        anew()
        status, out, told = ended(begun(folder, "fails"))
        yield "a proof fails", status != 70 or "cw_model failed" not in told or "the goal f/total is open: an error" not in told or "so far: 1" in told or "a line about thiserror" in told
        for name, one in (("a stop", signal.SIGINT), ("an end", signal.SIGTERM)):
            anew()
            child, until = begun(folder, "waits"), time.time() + 60
            while not os.path.exists(os.path.join(folder, "waits")) and time.time() < until:
                time.sleep(0.05)
            child.send_signal(one)
            status, out, told = ended(child)
            yield name, status != 130 or told[-1] != "stopped; the next run goes on from here" or any("failed" in line for line in told)
            os.remove(os.path.join(folder, "waits"))
        status, out, told = ended(begun(folder, ""))
        yield "behind a stop", (status, out) != (0, "the text\n") or wrong_order(told)
        anew()
        os.remove(os.path.join(folder, "bin", "rt"))
        if shutil.which("rt", path="/usr/bin:/bin") is None:
            yield "no rt", ended(begun(folder, "")) != (70, "", ['rt: not found; README, "How to run it", says what it is and where it comes from'])


def main():
    count = wrong = 0
    for name, is_wrong in tries():
        count += 1
        if is_wrong:
            wrong += 1
            print("wrong: %s" % name)
    print("%d tries, %d wrong" % (count, wrong))
    return 1 if wrong else 0


if __name__ == "__main__":
    sys.exit(main())
