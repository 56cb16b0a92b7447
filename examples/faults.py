#!/usr/bin/env python3
"""Small woven programs under what goes wrong between a text and a process: signals, crashes, full disks, exhausted tables. Each has to end with its status
and its message, in time, and to leave no process.

    python3 examples/faults.py [--compilers "gcc clang"] [--enforcing stand-in|kernel] [--only WORD] [CAPWEAVE]

CAPWEAVE is the program; without it that of the environment's variable CAPWEAVE, and else crates/capweave/out/capweave. --enforcing says what there is that
says no: the stand-in of capweave_enforce.h, or FreeBSD's kernel. Needs a Unix with a C compiler, Python 3.8 and no package.
"""
import argparse
import ctypes
import os
import re
import resource
import shutil
import signal
import subprocess
import sys
import tempfile
import time

HERE = os.path.dirname(os.path.abspath(__file__))
HEADER = os.path.join(HERE, "capweave.c")
SECONDS = 60

# f sees what it isn't to see in a process of its own; `work` and `after` are in another file
SPLIT = 'format = 1\nsplit = ["f"]\n[[at]]\nlabel = "a"\nnever = ["amb"]\n[[at]]\nlabel = "b"\nmust = ["amb"]\n'
CALLS = """
int f(int x)
{
    int y;

a:
    y = work(x);
    return y;
}

int main(void)
{
    int n, turn;

    before();
    for (turn = 0; turn < turns(); turn++) {
        n = f(turn);
b:
        after(n);
    }
    return status();
}
"""
DECLARED = "int work(int x); void before(void); int turns(void); void after(int n); int status(void);\n"
C = """#define _GNU_SOURCE 1
#include <errno.h>
#include <fcntl.h>
#include <signal.h>
#include <stdio.h>
#include <stdlib.h>
#include <string.h>
#include <sys/resource.h>
#include <sys/time.h>
#include <sys/wait.h>
#include <unistd.h>
"""
# what a trial doesn't say itself
REST = {"before": "void before(void) { }", "turns": "int turns(void) { return 1; }", "after": 'void after(int n) { printf("%d\\n", n); }', "status": "int status(void) { return 0; }"}

NEVER = 'format = 1\n[[at]]\nlabel = "a"\nnever = ["amb"]\n'
STOP = NEVER.replace("format = 1\n", 'format = 1\nrefusable = ["enter"]\non_refusal = "stop"\n')
LIMITED = 'format = 1\n[[descriptor]]\nname = "0"\n[[limit]]\ndescriptor = "0"\nkeep = []\n[[at]]\nlabel = "a"\nnever = ["0:CAP_READ"]\n'
PLAIN = '#include <stdio.h>\nint main(void)\n{\n    printf("begun, ");\na:\n    printf("gone on\\n");\n    return 0;\n}\n'


class Trial:
    """What is shown; the text of `work` and of others of the four; what it ends with; and how it is compiled and run."""

    def __init__(self, name, text, status, out, note="", policy=SPLIT, source=None, flags="-DCW_STANDIN", environment=None, changes=(), limits=None, full=None, linux=False, fault=None):
        self.name, self.text, self.status, self.out, self.note = name, text, status, out, note
        self.policy, self.source, self.flags = policy, source, flags
        self.environment, self.changes, self.limits, self.full, self.linux, self.fault = environment or {}, changes, limits, full, linux, fault


def crowded():
    """At most 64 descriptors."""
    resource.setrlimit(resource.RLIMIT_NOFILE, (64, 64))


def alone():
    """No further process. Limits don't hold for root, so another user is taken."""
    if os.getuid() == 0:
        os.setgid(65534)
        os.setuid(65534)
    resource.setrlimit(resource.RLIMIT_NPROC, (1, 1))


def ignoring():
    signal.signal(signal.SIGCHLD, signal.SIG_IGN)


SUM = "int work(int x) { volatile long n = 0; while (n < 200000) n++; return x + (int)(n - 200000); }"
TRIALS = [
    Trial("a call in a process of its own", "int work(int x) { return x + 41; }", 0, "41\n"),
    Trial("a result below zero", "int work(int x) { return -2147483647 - 1 + x; }", 0, "-2147483648\n"),
    Trial("errno comes back", "int work(int x) { errno = 34; return x; } void after(int n) { printf(\"%d %d\\n\", n, errno); }", 0, "0 34\n"),
    Trial("an alarm each 0.7 ms, whose handler interrupts calls", """
static volatile sig_atomic_t rang;
static void ring(int number) { (void)number; rang++; }
void before(void) {
    struct sigaction action; struct itimerval often = { { 0, 700 }, { 0, 700 } };
    memset(&action, 0, sizeof action); action.sa_handler = ring;
    sigaction(SIGALRM, &action, NULL); setitimer(ITIMER_REAL, &often, NULL); }
int work(int x) { volatile long n = 0; while (n < 400000) n++; return x; }
int turns(void) { return 300; }
static int sum;
void after(int n) { sum += n; }
int status(void) { struct itimerval never = { { 0, 0 }, { 0, 0 } }; setitimer(ITIMER_REAL, &never, NULL); printf("%d %d\\n", sum, rang > 30); return 0; }""", 0, "44850 1\n"),
    Trial("SIGCHLD is ignored, and the call ends as it should", SUM, 0, "0\n", limits=ignoring),
    Trial("SIGCHLD is ignored, and the process of its own crashes", "int work(int x) { raise(SIGSEGV); return x; }", 73, "", "capweave: seam 3: a process of its own was killed by signal 11\n", limits=ignoring),
    Trial("SIGCHLD is ignored before and after", "int work(int x) { return x + (signal(SIGCHLD, SIG_DFL) == SIG_IGN); } void after(int n) { printf(\"%d %d\\n\", n, signal(SIGCHLD, SIG_DFL) == SIG_IGN); }", 0, "1 1\n", limits=ignoring),
    Trial("a handler of SIGCHLD that waits for all", """
static volatile sig_atomic_t taken;
static void child(int number) { int status, before = errno; (void)number; while (waitpid(-1, &status, WNOHANG) > 0) taken++; errno = before; }
void before(void) { signal(SIGCHLD, child); }
int work(int x) { return x; }
int turns(void) { return 50; }
static int sum;
void after(int n) { sum += n; }
int status(void) { printf("%d %d\\n", sum, taken); return 0; }""", 0, "1225 0\n"),
    Trial("a crash of the process of its own", "int work(int x) { raise(SIGSEGV); return x; }", 73, "", "capweave: seam 3: a process of its own was killed by signal 11\n"),
    Trial("it is killed", "int work(int x) { kill(getpid(), SIGKILL); return x; }", 73, "begun\n", "capweave: seam 3: a process of its own was killed by signal 9\n",
          source='#include <stdio.h>\n' + DECLARED + CALLS.replace("    before();\n", '    printf("begun\\n");\n')),
    Trial("it ends by exit", 'int work(int x) { printf("bye %d\\n", x); exit(3); }', 3, "bye 0\n"),
    Trial("it ends by exit with 0", "int work(int x) { (void)x; exit(0); }", 0, ""),
    Trial("it crashes while a process that it made holds the pipe", """
int work(int x) { int one = getppid(); if (fork() == 0) { close(1); close(2); while (kill(one, 0) == 0) usleep(1000); _exit(0); } raise(SIGKILL); return x; }""", 73, "", "capweave: seam 3: a process of its own was killed by signal 9\n"),
    Trial("it ends while a process that it made holds the pipe", "int work(int x) { if (fork() == 0) { usleep(300000); _exit(0); } return x; }", 0, "0\n"),
    Trial("a program that it executes gets no end of the pipe", """
int work(int x) {
    char name[32]; int open_ones = 0;
    for (int number = 3; number < 1024; number++) { int flags = fcntl(number, F_GETFD); open_ones += flags >= 0 && (flags & FD_CLOEXEC) == 0; }
    (void)name; return x + open_ones; }""", 0, "0\n"),
    Trial("the numbers of descriptors are those of the plain tool", 'int work(int x) { return x + dup(2); }', 0, "3\n"),
    Trial("standard output is closed", "int work(int x) { return x + 7 + 0 * (int)(write(0, \"junk\", 4) + write(1, \"junk\", 4)); } void before(void) { close(1); close(0); } void after(int n) { fprintf(stderr, \"%d\\n\", n); }", 0, "", "7\n"),
    Trial("no descriptor is free", """
int work(int x) { return x; }
void before(void) { while (open("/dev/null", O_RDONLY) >= 0) continue; printf("all taken\\n"); }""", 72, "all taken\n", "capweave: seam 3: split refused: pipe: Too many open files\n", limits=crowded),
    Trial("one descriptor is free", """
int work(int x) { return x; }
void before(void) { int last = -1, next; while ((next = open("/dev/null", O_RDONLY)) >= 0) last = next; close(last); }""", 72, "", "capweave: seam 3: split refused: pipe: Too many open files\n", limits=crowded),
    Trial("three descriptors are free", """
int work(int x) { return x + 5; }
void before(void) { int last = -1, next; while ((next = open("/dev/null", O_RDONLY)) >= 0) last = next; close(last); close(last - 1); close(last - 2); }""", 0, "5\n", limits=crowded),
    Trial("1,024 descriptors are in use", """
int work(int x) { return x; }
void before(void) {
    struct rlimit most = { 1024, 1024 }; setrlimit(RLIMIT_NOFILE, &most);
    int count = 3; while (open("/dev/null", O_RDONLY) >= 0) count++; printf("%d\\n", count); }""", 72, "1024\n", "capweave: seam 3: split refused: pipe: Too many open files\n", limits=lambda: resource.setrlimit(resource.RLIMIT_NOFILE, (1024, 1024))),
    Trial("no process can be made", "int work(int x) { return x; }", 72, "", "capweave: seam 3: split refused: fork: Resource temporarily unavailable\n", limits=alone),
    Trial("the kind split is refused", "int work(int x) { return x; }", 72, "", "capweave: seam 3: split refused: fork: Resource temporarily unavailable\n", environment={"CW_REFUSE": "limit,split"}),
    Trial("the disk is full before a process is made", 'int work(int x) { return x; } void before(void) { printf("text"); }', 74, None, "capweave: seam 3: what was printed isn't written: No space left on device\n", full="stdout", linux=True),
    Trial("the disk is full as a process of its own ends", 'int work(int x) { printf("text"); return x; }', 74, None, "capweave: seam 3: what was printed isn't written: No space left on device\n", full="stdout", linux=True),
    Trial("the disk is full under the log", "int work(int x) { return x; }", 74, "", None, environment={"CW_LOG": "1"}, full="stderr", linux=True),
    Trial("what is printed in both processes comes once, in order", """
void before(void) { printf("one "); }
int work(int x) { printf("two "); return x; }""", 0, "one two 0\n"),
    Trial("a result of 8 bytes is cut short", "int work(int x) { return x; } void after(long n) { printf(\"%ld\\n\", n); }", 75, "", "capweave: seam 3: a process of its own wrote 5 bytes of 16\n",
          source=DECLARED.replace("after(int n)", "after(long n)") + CALLS.replace("int n, turn", "long n; int turn"), fault="write(d, b, n) write(d, b, (d) > 2 ? 5 : (n))"),
    Trial("a result of 8 bytes", "int work(int x) { return x - 9; } void after(long n) { printf(\"%ld\\n\", n); }", 0, "-9\n", source=DECLARED.replace("after(int n)", "after(long n)") + CALLS.replace("int n, turn", "long n; int turn")),
    Trial("a result can't be written", "int work(int x) { return x; }", 75, "", "capweave: seam 3: the result isn't written: Bad file descriptor\n", fault="write(d, b, n) write((d) > 2 ? 1000 : (d), b, n)"),
    Trial("a status that somebody else has taken", "int work(int x) { return x + 8; }", 0, "8\n", fault="waitpid(c, s, o) (waitpid(c, s, o), errno = ECHILD, (pid_t)-1)"),
    Trial("a status that somebody else has taken, and no result", "int work(int x) { raise(SIGKILL); return x; }", 73, "", "capweave: seam 3: a process of its own ended without a result\n", fault="waitpid(c, s, o) (waitpid(c, s, o), errno = ECHILD, (pid_t)-1)"),
    Trial("enter is granted", "", 0, "begun, gone on\n", policy=NEVER, source=PLAIN),
    Trial("enter is refused", "", 71, "begun, ", "capweave: seam 1: enter refused: Function not implemented\n", policy=STOP, source=PLAIN, environment={"CW_REFUSE": "enter"}),
    Trial("enter is refused, and the log tells", "", 71, "begun, ", "capweave: enter -1 0x0 refused\ncapweave: seam 1: enter refused: Function not implemented\n", policy=STOP, source=PLAIN, environment={"CW_REFUSE": "enter", "CW_LOG": "1"}),
    Trial("another kind is refused", "", 0, "begun, gone on\n", policy=STOP, source=PLAIN, environment={"CW_REFUSE": "limit,split,enters"}),
    Trial("a limit is refused", "", 71, "begun, ", "capweave: seam 1: limit 0 refused: Function not implemented\n", policy=LIMITED, source=PLAIN, environment={"CW_REFUSE": "limit"}),
    Trial("enter is refused on a full disk", "", 71, None, "capweave: seam 1: what was printed isn't written: No space left on device\ncapweave: seam 1: enter refused: Function not implemented\n", policy=STOP, source=PLAIN, environment={"CW_REFUSE": "enter"}, full="stdout", linux=True),
    Trial("enter is refused in a process of its own", "int work(int x) { return x; }", 71, "", "capweave: seam 1: enter refused: Function not implemented\n", environment={"CW_REFUSE": "enter"}),
    Trial("no such primitive, taken as granted", "", 0, "begun, gone on\n", policy=STOP, source=PLAIN, environment={"CW_REFUSE": "enter"}, flags="-DCW_STANDIN -DCW_ENOSYS_AS_GRANTED"),
    Trial("no such primitive, taken as granted, of limits", "", 0, "begun, gone on\n", policy=LIMITED, source=PLAIN, environment={"CW_REFUSE": "limit"}, flags="-DCW_STANDIN -DCW_ENOSYS_AS_GRANTED"),
    Trial("a hook before the first enter", "void ready(void) { printf(\"ready \"); errno = 5; } int work(int x) { return x + errno; } int turns(void) { return 2; } void before(void) { errno = 0; }", 0, "ready 0\nready 1\n", flags="-DCW_STANDIN -DCW_BEFORE_ENTER=ready"),
    Trial("a hook is called once, though enter is tried twice", "void ready(void) { printf(\"ready \"); }", 0, "ready 3\n", flags="-DCW_STANDIN -DCW_BEFORE_ENTER=ready", environment={"CW_REFUSE": "enter"},
          policy=NEVER.split("[[")[0], source='#include <stdio.h>\nint main(void)\n{\n    int n = 0;\n\n    while (n < 3)\na:\n        n++;\n    printf("%d\\n", n);\n    return 0;\n}\n',
          changes=[("CW_AT(1,0,0)", "CW_TRY(1,0,0,0,0)\nCW_AT(1,0,0)")]),
    Trial("a hook is called once a process", "void ready(void) { printf(\"ready \"); }", 0, "ready ab\n", flags="-DCW_STANDIN -DCW_BEFORE_ENTER=ready",
          policy=NEVER.replace("[[at]]", '[[descriptor]]\nname = "0"\n[[at]]', 1), source='#include <stdio.h>\nint main(void)\n{\na:\n    printf("a");\n    printf("b\\n");\n    return 0;\n}\n'),
    Trial("enter is refused, and the table goes on", "", 0, "begun, gone on\n", "capweave: enter -1 0x0 refused\n", policy=NEVER.split("[[")[0], source=PLAIN, environment={"CW_REFUSE": "enter", "CW_LOG": "1"},
          changes=[("CW_AT(1,1,0)", "CW_TRY(1,0,1,0,1)\nCW_AT(1,0,0)\nCW_AT(1,1,0)")]),
    Trial("a process of its own is refused, and the table goes on", "static int here; void before(void) { here = getpid(); } int work(int x) { return x + (getpid() == here); }", 0, "1\n", environment={"CW_REFUSE": "split"},
          changes=[("CW_TRY(3,1,0,0,CW_NONE)", "CW_TRY(3,1,0,0,0)"), ("CW_INTO(3,1,0,0)", "CW_INTO(3,0,0,0)\nCW_INTO(3,1,0,0)"), ("CW_BACK(3,1,0,3,2)", "CW_BACK(3,0,0,3,2)\nCW_BACK(3,1,0,3,2)")]),
    Trial("a row is missing", "", 70, "begun, ", "capweave: seam 1: the table has no row for memory 1\n", policy=NEVER, source=PLAIN, changes=[("CW_AT(1,1,2)", "CW_AT(1,2,2)")]),
    Trial("an answer without a memory", "", 70, "begun, ", "capweave: seam 1: enter granted, for which the table has no memory\n", policy=NEVER, source=PLAIN, changes=[("CW_TRY(1,0,0,1,CW_NONE)", "CW_TRY(1,0,0,CW_NONE,1)")]),
]
# what only something that says no can show
ENFORCED = [
    Trial("an open after enter", "int work(int x) { return x + (open(\"/dev/null\", O_RDONLY) < 0 ? errno : 0); }", 0, "94\n"),
    Trial("an open after enter, and the log tells", "int work(int x) { return x + (open(\"/dev/null\", O_RDONLY) < 0 ? errno : 0); }", 0, "94\n",
          re.compile(r"capweave: split -1 0x0 granted\ncapweave: enter -1 0x0 granted\ncapweave: open(at)? -?\d+ answered ECAPMODE\n"), environment={"CW_LOG": "1"}, linux=True),
    Trial("the parent isn't in capability mode", "int work(int x) { return x; } void after(int n) { printf(\"%d %d\\n\", n, open(\"/dev/null\", O_RDONLY) < 0); }", 0, "0 0\n"),
    Trial("a limit in a process of its own doesn't change the parent", "int work(int x) { char byte; return x + (read(0, &byte, 1) < 0 ? errno : 0); } void after(int n) { char byte; printf(\"%d %d\\n\", n, read(0, &byte, 1) < 0); }", 0, "93 0\n",
          policy='format = 1\nsplit = ["f"]\n[[descriptor]]\nname = "0"\n[[limit]]\ndescriptor = "0"\nkeep = []\n[[at]]\nlabel = "a"\nnever = ["0:CAP_READ"]\n[[at]]\nlabel = "b"\nmust = ["0:CAP_READ"]\n'),
]


def source_of(trial):
    return trial.source or DECLARED + CALLS


def support_of(trial):
    """The other file of a trial: its own text, and what it doesn't have of the rest."""
    text = C + trial.text + "\n"
    if trial.source is None or "work(" in trial.source:
        text += "\n".join(rest for name, rest in REST.items() if not re.search(r"\b%s\(" % name, trial.text))
    return text + "\n"


class Trials:
    def __init__(self, program, folder, enforcing):
        self.program, self.folder, self.enforcing, self.wrong, self.tried, self.objects = program, folder, enforcing, 0, 0, {}

    def fail(self, name, text):
        self.wrong += 1
        print("failed: %s: %s" % (name, text))

    def weave(self, policy, source, changes=()):
        """The name of a woven text."""
        for name, text in (("policy", policy), ("source.c", source)):
            with open(os.path.join(self.folder, name), "w") as file:
                file.write(text)
        done = subprocess.run([self.program, "weave", "policy", "source.c"], cwd=self.folder, capture_output=True, text=True)
        if done.returncode != 0:
            raise RuntimeError("not woven: %d %s" % (done.returncode, done.stderr))
        text = done.stdout
        for before, after in changes:
            assert before in text, text
            text = text.replace(before, after)
        with open(os.path.join(self.folder, "woven.c"), "w") as file:
            file.write(text)
        return "woven.c"

    def compile(self, compiler, file, flags, fault=None):
        """The object of a file; the header's is kept."""
        key = (compiler, file, tuple(flags), fault)
        if key in self.objects:
            return self.objects[key]
        words = [compiler, "-std=c11", "-O1", "-Wall", "-Wextra", "-Werror", "-I", HERE] + flags + (["-D_DEFAULT_SOURCE"] if sys.platform.startswith("linux") else [])
        if fault is not None:
            with open(os.path.join(self.folder, "fault.h"), "w") as opened:
                opened.write("#define _GNU_SOURCE 1\n#include <sys/types.h>\n#include <sys/wait.h>\n#include <errno.h>\n#include <unistd.h>\n#define %s\n" % fault)
            words += ["-include", "fault.h"]
        out = "%s.%d.o" % (os.path.basename(file), len(self.objects))
        done = subprocess.run(words + ["-c", "-o", out, file], cwd=self.folder, capture_output=True, text=True)
        if done.returncode != 0:
            raise RuntimeError("%s: %s" % (compiler, done.stderr))
        if file == HEADER:
            self.objects[key] = out
        return out

    def link(self, compiler, objects):
        subprocess.run([compiler, "-o", "woven"] + objects, cwd=self.folder, check=True)
        return os.path.join(self.folder, "woven")

    def build(self, compiler, trial, woven, flags):
        """A woven text with what it calls, but for the header."""
        with open(os.path.join(self.folder, "support.c"), "w") as file:
            file.write(support_of(trial))
        return [self.compile(compiler, woven, flags), self.compile(compiler, "support.c", flags)]

    def left(self):
        """Whether processes are left that the woven program made. This process is their parent then."""
        for _ in range(200):
            try:
                ended, _ = os.waitpid(-1, os.WNOHANG)
            except ChildProcessError:
                return False
            if ended == 0:
                time.sleep(0.05)
        return True

    def run(self, trial, binary):
        environment = {name: value for name, value in os.environ.items() if not name.startswith("CW_")}
        environment.update(trial.environment)
        files = {"stdout": subprocess.PIPE, "stderr": subprocess.PIPE}
        if trial.full:
            files[trial.full] = open("/dev/full", "w")
        try:
            done = subprocess.run([binary], cwd=self.folder, env=environment, preexec_fn=trial.limits, timeout=SECONDS, stdin=subprocess.DEVNULL, text=True, **files)
        except subprocess.TimeoutExpired:
            self.fail(trial.name, "it hangs")
            return
        finally:
            if trial.full:
                files[trial.full].close()
        note_fits = trial.note is None or (trial.note.fullmatch(done.stderr or "") if isinstance(trial.note, re.Pattern) else done.stderr == trial.note)
        if done.returncode != trial.status or not note_fits or (trial.out is not None and done.stdout != trial.out):
            self.fail(trial.name, "%d %r %r, not %d %r %r" % (done.returncode, done.stdout, done.stderr, trial.status, trial.out, trial.note))
        if self.left():
            self.fail(trial.name, "a process is left")

    def one(self, trial, compiler):
        """Over the stand-in that keeps books, and over what says no."""
        if trial.linux and not sys.platform.startswith("linux"):
            return
        kinds = [trial.flags.split()] if trial not in ENFORCED else []
        if self.enforcing == "stand-in":
            kinds.append(trial.flags.split() + ["-DCW_ENFORCE"])
        if self.enforcing == "kernel" and not trial.environment:
            kinds.append([flag for flag in trial.flags.split() if flag != "-DCW_STANDIN"])
        try:
            objects = self.build(compiler, trial, self.weave(trial.policy, source_of(trial), trial.changes), [])
            for flags in kinds:
                self.tried += 1
                self.run(trial, self.link(compiler, objects + [self.compile(compiler, HEADER, flags, trial.fault)]))
        except (RuntimeError, AssertionError) as error:
            self.fail(trial.name, str(error))


def warnings(trials, compilers):
    """A label as the body of an if, before a break, before an if with an else; and a variable that a label's statement sets."""
    source = """int g(int x);
static int fd = -1;
int f(int x) { return x; }
int main(int argc, char **argv)
{
    int n, m;

    if (argc)
        a: g(1);
    while (argc) {
b:
        if (argv)
            n = f(1);
        else
            n = g(2);
        if (n)
c:
            break;
    }
d:
    m = g(3);
    if (m)
e:
        fd = g(4);
    if (fd > 0)
h:
        close(fd);
    return m;
}
int close(int fd);
"""
    source = source.replace("int close(int fd);\n", "").replace("int g(int x);\n", "int g(int x);\nint close(int d);\n", 1)
    policy = 'format = 1\n[[descriptor]]\nname = "fd"\n[[limit]]\ndescriptor = "fd"\nkeep = []\n[[at]]\nlabel = "d"\nnever = ["amb"]\n[[at]]\nlabel = "h"\nnever = ["fd:CAP_READ"]\n'
    woven = trials.weave(policy, source)
    for compiler in compilers:
        for level in ("-O0", "-O2", "-O3"):
            trials.tried += 1
            done = subprocess.run([compiler, "-std=c11", level, "-Wall", "-Wextra", "-Werror", "-I", HERE, "-c", "-o", os.devnull, woven], cwd=trials.folder, capture_output=True, text=True)
            if done.returncode != 0:
                trials.fail("warnings, %s %s" % (compiler, level), done.stderr)


def killed_parent(trials, compiler):
    """Where the one that waits is killed, its process of its own goes too (Linux)."""
    trial = Trial("the one that waits is killed", 'int work(int x) { printf("here\\n"); fflush(stdout); for (;;) sleep(1); return x; }', None, "")
    trials.tried += 1
    objects = trials.build(compiler, trial, trials.weave(trial.policy, source_of(trial)), [])
    binary = trials.link(compiler, objects + [trials.compile(compiler, HEADER, ["-DCW_STANDIN"])])
    process = subprocess.Popen([binary], stdout=subprocess.PIPE, text=True)
    process.stdout.readline()
    process.kill()
    process.wait()
    process.stdout.close()
    if trials.left():
        trials.fail(trial.name, "a process is left")


def look_ups(trials, compiler):
    """Ten million passes of a label under 1,500 rows, within two seconds of the processor."""
    names = ["fd", "gd", "hd"]
    policy = "format = 1\n" + "".join('[[descriptor]]\nname = "%s"\n' % name for name in names)
    policy += "".join('[[limit]]\ndescriptor = "%s"\nkeep = [%s]\n' % (name, keep) for name in names for keep in ("", '"CAP_READ"'))
    policy += "".join('[[at]]\nlabel = "l%d"\nnever = ["amb", "%s:CAP_WRITE"]\n' % (n, names[n % 3]) for n in range(8))
    source = "int open_it(void);\nint turns(int n);\n" + "".join("static int %s = -1;\n" % name for name in names)
    source += "int main(void)\n{\n    long n = 0;\n    int c;\n\n"
    source += "".join("    c = turns(%d);\n    if (c)\n        %s = open_it();\n" % (n, name) for n, name in enumerate(names))
    source += "".join("m%d:\n    c = turns(%d);\n" % (n, n) for n in range(200))
    source += "".join("l%d:\n    c = turns(%d);\n" % (n, n) for n in range(8))
    source += "    while (n < 10000000)\nhot:\n        n++;\n    return 0;\n}\n"
    trials.tried += 1
    woven = trials.weave(policy, source)
    with open(os.path.join(trials.folder, woven)) as file:
        rows = sum(line.startswith("CW_") and not line.startswith("CW_LIVE") for line in file)
    support = Trial("look-ups", 'int open_it(void) { return open("/dev/null", O_RDWR); }\nint turns(int n) { return n >= 0; }\n', 0, "", source=source)
    binary = trials.link(compiler, trials.build(compiler, support, woven, ["-O2"]) + [trials.compile(compiler, HEADER, ["-DCW_STANDIN", "-O2"])])
    before = resource.getrusage(resource.RUSAGE_CHILDREN)
    done = subprocess.run([binary], stdout=subprocess.PIPE, stderr=subprocess.PIPE, text=True)
    after = resource.getrusage(resource.RUSAGE_CHILDREN)
    seconds = after.ru_utime + after.ru_stime - before.ru_utime - before.ru_stime
    if done.returncode != 0 or rows < 1500 or seconds > 2:
        trials.fail("look-ups", "%d %s %.1f seconds under %d rows" % (done.returncode, done.stderr, seconds, rows))
    return "ten million passes of a label under %d rows: %.2f seconds" % (rows, seconds)


def main():
    parser = argparse.ArgumentParser(description=__doc__, formatter_class=argparse.RawDescriptionHelpFormatter)
    parser.add_argument("program", nargs="?", default=os.environ.get("CAPWEAVE") or os.path.join(HERE, "../crates/capweave/out/capweave"))
    parser.add_argument("--compilers", default="gcc clang")
    parser.add_argument("--enforcing", choices=("stand-in", "kernel"))
    parser.add_argument("--only", default="")
    options = parser.parse_args()
    compilers = [compiler for compiler in options.compilers.split() if shutil.which(compiler)]
    if sys.platform.startswith("linux"):
        ctypes.CDLL(None).prctl(36, 1, 0, 0, 0)         # this process becomes the parent of what is left
    with tempfile.TemporaryDirectory() as folder:
        trials = Trials(os.path.abspath(options.program), folder, options.enforcing)
        os.chmod(folder, 0o755)
        for number, trial in enumerate(TRIALS + (ENFORCED if options.enforcing else [])):
            if options.only in trial.name:
                trials.one(trial, compilers[number % len(compilers)])
        told = ""
        if not options.only:
            warnings(trials, compilers)
            if sys.platform.startswith("linux"):
                killed_parent(trials, compilers[0])
            told = "; " + look_ups(trials, compilers[0])
    if not options.enforcing:
        print("faults: nothing here says no: %d trials under enforcement aren't tried" % len(ENFORCED))
    print("faults: %d runs of %d trials, %d wrong%s" % (trials.tried, len(TRIALS) + len(ENFORCED), trials.wrong, told))
    return 1 if trials.wrong else 0


if __name__ == "__main__":
    sys.exit(main())
