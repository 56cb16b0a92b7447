"""Runs a command and tells what came of it, with its time and memory. Used by the scripts beside it; needs Linux, Python 3.8 and no package."""
import collections
import ctypes
import os
import signal
import subprocess
import time

ADOPTS_ORPHANS = 36  # prctl(2): PR_SET_CHILD_SUBREAPER
# The shell starts the command and ends at once, so that the memory told is the command's alone; the system hands the command to this process.
SHELL = '[ "$1" = 0 ] || ulimit -s "$1"; [ "$2" = 0 ] || ulimit -v "$2"; shift 2; "$@" >out 2>note & exec echo $!'

Ran = collections.namedtuple("Ran", "status out note seconds kilobytes")


def prepared():
    """To be called once, before any `ran`."""
    ctypes.CDLL(None).prctl(ADOPTS_ORPHANS, 1, 0, 0, 0)


def used(child):
    """The processor time of a process that was started and not waited for."""
    with open("/proc/%d/stat" % child, encoding="ascii", errors="replace") as file:
        fields = file.read().rpartition(")")[2].split()
    return (int(fields[11]) + int(fields[12])) / os.sysconf("SC_CLK_TCK")


def ran(words, folder, stack=0, seconds=600, memory=0):
    """The status (minus the number of a signal; None where it took more processor time than `seconds`, or waited for twenty times as long), output, note,
    processor time and greatest resident size. `stack`, and `memory` for all that the process may map, are in KiB, 0 for what there is. The command's output stands in the files `out` and `note` of the folder."""
    begun = time.monotonic()
    shell = subprocess.run(["sh", "-c", SHELL, "sh", str(stack), str(memory), *words], cwd=folder, stdout=subprocess.PIPE, check=True)
    child, ended = int(shell.stdout), 0
    pause = 0.001
    while not ended:
        ended, code, usage = os.wait4(child, os.WNOHANG)
        if not ended:
            if used(child) > seconds or time.monotonic() - begun > 20 * seconds:
                os.kill(child, signal.SIGKILL)
                os.wait4(child, 0)
                return Ran(None, b"", b"", seconds, 0)
            time.sleep(pause)
            pause = min(2 * pause, 0.1)
    status = os.WEXITSTATUS(code) if os.WIFEXITED(code) else -os.WTERMSIG(code)
    texts = []
    for name in ("out", "note"):
        with open(os.path.join(folder, name), "rb") as file:
            texts.append(file.read())
    return Ran(status, texts[0], texts[1], usage.ru_utime + usage.ru_stime, usage.ru_maxrss)


def written(folder, files):
    """Writes files, a map from names to text or bytes."""
    for name, text in files.items():
        with open(os.path.join(folder, name), "wb") as file:
            file.write(text.encode() if isinstance(text, str) else text)
