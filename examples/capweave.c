/*
 * capweave.c - what the example header's macros call. Not proved; see capweave.h.
 *
 * On FreeBSD the primitives are the kernel's. Elsewhere a stand-in for the kernel lets woven tools run: with -DCW_STANDIN one that keeps books of
 * what is granted, on any Unix; with -DCW_STANDIN -DCW_ENFORCE one that says no, on Linux (capweave_enforce.h). docs/STAND-IN.md tells what they
 * do, and docs/OUTPUTS.md the messages and statuses. Two choices, both off:
 *
 *     -DCW_BEFORE_ENTER=FUNCTION    void FUNCTION(void) is called before a process enters capability mode for the first time. No policy sees it.
 *     -DCW_ENOSYS_AS_GRANTED        where the kernel has no such primitive the program goes on as if it were granted: without what is promised.
 */
#if defined __linux__ && !defined _GNU_SOURCE
#define _GNU_SOURCE
#endif

#include "capweave.h"

#include <errno.h>
#include <fcntl.h>
#include <poll.h>
#include <signal.h>
#include <stdarg.h>
#include <stdio.h>
#include <stdlib.h>
#include <string.h>
#include <sys/types.h>
#include <sys/wait.h>
#include <unistd.h>
#ifdef __linux__
#include <sys/prctl.h>
#endif

/* the statuses with which the header itself ends a program */
enum ending { NOT_ENFORCED = 69, NO_ROW, REFUSED, NO_PROCESS, NO_RESULT, UNWRITTEN, CUT_SHORT };

/* a line on standard error, written past the stream, which may be buffered, and in one piece */
static void say(const char *form, ...)
{
    char line[256] = "capweave: ";
    va_list parts;
    va_start(parts, form);
    int length = vsnprintf(line + 10, sizeof line - 11, form, parts);
    va_end(parts);
    size_t size = 10 + (length < 0 ? 0 : length < (int)sizeof line - 11 ? (size_t)length : sizeof line - 12);
    line[size++] = '\n';
    if (write(STDERR_FILENO, line, size) < 0)
        return;
}

/*
 * The kernel: `kernel_enter` and `kernel_limit` answer as cap_enter(2) and cap_rights_limit(2) do, with errno, and `kernel_fork` as fork(2) does;
 * `kernel_opened` hears of the number that a descriptor's variable has got; `told` hears of each try, and of a split in the process that it made.
 */
#if defined CW_KERNEL
#include CW_KERNEL
#elif !defined CW_STANDIN
#include <sys/capsicum.h>
#include <sys/procctl.h>

/* the twelve rights, from the lowest bit of a mask */
static const uint64_t *the_rights(void)
{
    static const uint64_t rights[12] = { CAP_READ, CAP_WRITE, CAP_SEEK, CAP_FSTAT, CAP_FTRUNCATE, CAP_FSYNC, CAP_FCNTL, CAP_IOCTL,
        CAP_EVENT, CAP_ACCEPT, CAP_LISTEN, CAP_LOOKUP };
    return rights;
}

static int kernel_enter(void)
{
    return cap_enter();
}

static int kernel_limit(int descriptor, unsigned mask)
{
    cap_rights_t kept;
    cap_rights_init(&kept);
    for (int right = 0; right < 12; right++)
        if ((mask >> right & 1) != 0)
            cap_rights_set(&kept, the_rights()[right]);
    return cap_rights_limit(descriptor, &kept);
}

static pid_t kernel_fork(void)
{
    return fork();
}

static void kernel_opened(int descriptor)
{
    (void)descriptor;
}

static void told(unsigned seam, const char *primitive, unsigned index, int descriptor, unsigned mask, int answer)
{
    (void)seam;
    (void)primitive;
    (void)index;
    (void)descriptor;
    (void)mask;
    (void)answer;
}
#else

/* whether CW_REFUSE in the environment has this kind, as in CW_REFUSE=limit,split */
static int refuses(const char *kind)
{
    const char *at = getenv("CW_REFUSE");
    size_t length = strlen(kind);
    for (; at != NULL && *at != 0; at += *at == ',') {
        size_t word = strcspn(at, ",");
        if (word == length && memcmp(at, kind, length) == 0)
            return 1;
        at += word;
    }
    return 0;
}

/* with CW_LOG in the environment, a line on standard error; where it can't be written the program ends, so that no test takes silence for peace */
static void logged(const char *line, size_t size);

static void told(unsigned seam, const char *primitive, unsigned index, int descriptor, unsigned mask, int answer)
{
    int before = errno;
    char line[96];
    (void)seam;
    (void)index;
    if (getenv("CW_LOG") != NULL)
        logged(line, (size_t)snprintf(line, sizeof line, "capweave: %s %d 0x%x %s\n", primitive, descriptor, mask, answer == 0 ? "granted" : "refused"));
    errno = before;
}

static pid_t kernel_fork(void)
{
    if (refuses("split")) {
        errno = EAGAIN;
        return -1;
    }
    return fork();
}

#ifdef CW_ENFORCE
#include "capweave_enforce.h"
#else
#ifndef ENOTCAPABLE
#define ENOTCAPABLE EACCES
#endif
enum { DESCRIPTORS = 1024, ALL = 0xfff };
static unsigned lost[DESCRIPTORS];      /* the rights that were taken from a descriptor */

static int kernel_enter(void)
{
    if (!refuses("enter"))
        return 0;
    errno = ENOSYS;
    return -1;
}

static int kernel_limit(int descriptor, unsigned mask)
{
    if (descriptor < 0 || descriptor >= DESCRIPTORS || fcntl(descriptor, F_GETFD) < 0)
        errno = EBADF;
    else if ((lost[descriptor] & mask) != 0)
        errno = ENOTCAPABLE;
    else if (refuses("limit"))
        errno = ENOSYS;
    else {
        lost[descriptor] = ALL & ~mask;
        return 0;
    }
    return -1;
}

static void kernel_opened(int descriptor)
{
    if (descriptor >= 0 && descriptor < DESCRIPTORS)
        lost[descriptor] = 0;
}

static ssize_t put_log(const char *line, size_t size)
{
    return write(STDERR_FILENO, line, size);
}
#endif

static void logged(const char *line, size_t size)
{
    if (put_log(line, size) == (ssize_t)size)
        return;
    say("the log: %s", strerror(errno));
    _exit(UNWRITTEN);
}
#endif

static unsigned memory;                                 /* the memory of the frame that runs */
static const unsigned *rows_of[cw_is_done + 1];         /* where the rows of each kind begin; the next kind's are where they end */

enum { WIDTH = 6 };

/* What ends the program: its message, and its status, after what stdio holds is written. */
static void end(enum ending status, unsigned seam, const char *form, ...)
{
    char what[160];
    va_list parts;
    va_start(parts, form);
    vsnprintf(what, sizeof what, form, parts);
    va_end(parts);
    if (fflush(NULL) != 0)
        say("seam %u: what was printed isn't written: %s", seam, strerror(errno));
    say("seam %u: %s", seam, what);
    _exit(status);
}

/* what stdio holds is written before a process is made, and at its end; it would be lost, or written twice */
static void flushed(unsigned seam)
{
    if (fflush(NULL) == 0)
        return;
    say("seam %u: what was printed isn't written: %s", seam, strerror(errno));
    _exit(UNWRITTEN);
}

static void begin(const unsigned *table)
{
    if (rows_of[cw_is_done] != NULL)
        return;
    memory = table[1];
    const unsigned *at = table;
    for (unsigned kind = 0; kind <= cw_is_done; kind++) {
        while (at[0] < kind)
            at += WIDTH;
        rows_of[kind] = at;
    }
}

/* the first row of this kind that isn't below the key, by halving: rows ascend by the numbers of their keys */
static const unsigned *from_row(unsigned kind, unsigned count, const unsigned *key)
{
    const unsigned *low = rows_of[kind];
    size_t rows = (size_t)(rows_of[kind + 1] - low) / WIDTH;
    while (rows > 0) {
        const unsigned *middle = low + rows / 2 * WIDTH;
        unsigned place = 0;
        while (place + 1 < count && middle[1 + place] == key[place])
            place++;
        if (middle[1 + place] < key[place]) {
            low = middle + WIDTH;
            rows -= rows / 2 + 1;
        } else {
            rows /= 2;
        }
    }
    return low;
}

static const unsigned *sure_row(unsigned kind, unsigned seam, unsigned count, const unsigned *key)
{
    const unsigned *found = from_row(kind, count, key);
    if (found == rows_of[kind + 1] || memcmp(found + 1, key, count * sizeof *key) != 0)
        end(NO_ROW, seam, "the table has no row for memory %u", memory);
    return found;
}

/* the try at this seam with the present memory that is next from this stage on, or NULL */
static const unsigned *next_try(unsigned seam, unsigned stage)
{
    const unsigned *past = rows_of[cw_is_try + 1];
    for (;;) {
        const unsigned key[3] = { seam, stage, memory };
        const unsigned *found = from_row(cw_is_try, 3, key);
        if (found == past || found[1] != seam)
            return NULL;
        if (found[2] == stage && found[3] == memory)
            return found;
        stage = found[2] > stage ? found[2] : stage + 1;
    }
}

/* the memory after an answer; where there is none the program ends */
static void answered(const unsigned *try_row, int answer, const char *what)
{
    unsigned after = answer == 0 ? try_row[4] : try_row[5];
    if (after == CW_NONE && answer == 0)
        end(NO_ROW, try_row[1], "%s granted, for which the table has no memory", what);
    if (after == CW_NONE)
        end(REFUSED, try_row[1], "%s refused: %s", what, strerror(errno));
    memory = after;
}

static int enter(void)
{
#ifdef CW_BEFORE_ENTER
    void CW_BEFORE_ENTER(void);
    static int called;
    if (!called)
        CW_BEFORE_ENTER();
    called = 1;
#endif
    return kernel_enter();
}

static int without_primitive(int answer)
{
#ifdef CW_ENOSYS_AS_GRANTED
    return answer != 0 && errno == ENOSYS;
#else
    (void)answer;
    return 0;
#endif
}

/* the limits in the policy's order, and then enter: each is tried where a row says so; a split's row is left to the caller */
static const unsigned *pass(unsigned seam, unsigned count, const int *descriptors, const unsigned *masks)
{
    const unsigned *row;
    for (unsigned stage = 0; (row = next_try(seam, stage)) != NULL && row[2] <= count; stage = row[2] + 1) {
        unsigned index = row[2];
        int limits = index < count;
        char what[24] = "enter";
        if (limits)
            snprintf(what, sizeof what, "limit %u", index);
        int answer = limits ? kernel_limit(descriptors[index], masks[index]) : enter();
        told(seam, limits ? "limit" : "enter", index, limits ? descriptors[index] : -1, limits ? masks[index] : 0, answer);
        answered(row, without_primitive(answer) ? 0 : answer, what);
    }
    return row;
}

void cw_entry(const unsigned *table, unsigned seam, unsigned count, const int *descriptors, const unsigned *masks)
{
    int before = errno;
    begin(table);
    pass(seam, count, descriptors, masks);
    errno = before;
}

void cw_label(unsigned seam, unsigned count, const int *descriptors, const unsigned *masks)
{
    int before = errno;
    pass(seam, count, descriptors, masks);
    memory = sure_row(cw_is_at, seam, 2, (const unsigned[]){ seam, memory })[3];
    errno = before;
}

void cw_opened(unsigned seam, int descriptor)
{
    const unsigned *found = sure_row(cw_is_opened, seam, 2, (const unsigned[]){ seam, memory });
    if (descriptor >= 0)
        kernel_opened(descriptor);
    memory = descriptor >= 0 ? found[3] : found[4];
}

void cw_closed(unsigned seam)
{
    memory = sure_row(cw_is_closed, seam, 2, (const unsigned[]){ seam, memory })[3];
}

/* A call runs: once in a plain call and in the child; not at all in the parent of a child. */
enum { PLAIN, CHILD, PARENT };

/* what a process of its own writes to the one that waits for it; with a result behind it, in one piece, which a pipe takes whole */
struct last_words {
    unsigned memory;
    int error;
};
enum { RESULT = 64, WORDS = sizeof(struct last_words) };

/*
 * While a process of its own runs, SIGCHLD waits, and isn't ignored: else a handler of the tool, or the kernel, would take the status that is waited
 * for here. What it was before is put back in the child at once, and in the parent when the child is over.
 */
static sigset_t old_signals;
static struct sigaction old_action;

static void hold_signal(void)
{
    sigset_t held;
    sigemptyset(&held);
    sigaddset(&held, SIGCHLD);
    sigprocmask(SIG_BLOCK, &held, &old_signals);
    sigaction(SIGCHLD, NULL, &old_action);
    if (old_action.sa_handler == SIG_IGN || (old_action.sa_flags & SA_NOCLDWAIT) != 0) {
        struct sigaction plain;
        memset(&plain, 0, sizeof plain);
        plain.sa_handler = SIG_DFL;
        sigaction(SIGCHLD, &plain, NULL);
    }
}

static void release_signal(void)
{
    if (old_action.sa_handler == SIG_IGN || (old_action.sa_flags & SA_NOCLDWAIT) != 0)
        sigaction(SIGCHLD, &old_action, NULL);
    sigprocmask(SIG_SETMASK, &old_signals, NULL);
}

/* an end of the pipe moved out of the way of the numbers that the tool uses; a program that is executed doesn't get it */
static int out_of_the_way(int end_of_pipe)
{
    int moved = fcntl(end_of_pipe, F_DUPFD_CLOEXEC, 100);
    if (moved < 0)
        moved = fcntl(end_of_pipe, F_DUPFD_CLOEXEC, 3);
    int before = errno;
    close(end_of_pipe);
    errno = before;
    return moved;
}

/* a pipe's ends, or what went wrong */
static const char *piped(int ends[2])
{
    if (pipe(ends) < 0)
        return "pipe";
    for (int place = 0; place < 2; place++) {
        ends[place] = out_of_the_way(ends[place]);
        if (ends[place] < 0) {
            int before = errno;
            close(ends[1 - place]);
            errno = before;
            return "pipe";
        }
    }
    return NULL;
}

/* where a process can't be made the split is refused */
static void not_forked(const unsigned *try_row, const char *what)
{
    told(try_row[1], "split", 0, -1, 0, -1);
    if (try_row[5] == CW_NONE)
        end(NO_PROCESS, try_row[1], "split refused: %s: %s", what, strerror(errno));
    memory = try_row[5];
}

/* A process of its own doesn't outlive the one that waits for it, where the system has a way to say so. */
static void end_with(pid_t parent)
{
#if !defined CW_STANDIN && !defined CW_KERNEL && defined PROC_PDEATHSIG_CTL
    int signal_number = SIGKILL;
    procctl(P_PID, 0, PROC_PDEATHSIG_CTL, &signal_number);
#elif defined __linux__
    prctl(PR_SET_PDEATHSIG, SIGKILL);
#endif
    if (getppid() != parent)
        _exit(NO_RESULT);
}

static void forked(struct cw_call *call, const unsigned *try_row)
{
    int ends[2];
    flushed(call->seam);
    const char *fault = piped(ends);
    if (fault != NULL) {
        not_forked(try_row, fault);
        return;
    }
    pid_t parent = getpid();
    hold_signal();
    pid_t child = kernel_fork();
    if (child <= 0) {
        int before = errno;
        release_signal();
        close(ends[0]);
        if (child < 0)
            close(ends[1]);
        errno = before;
    }
    if (child < 0) {
        not_forked(try_row, "fork");
        return;
    }
    if (child == 0) {
        end_with(parent);
        told(call->seam, "split", 0, -1, 0, 0);
    } else {
        close(ends[1]);
    }
    answered(try_row, 0, "split");
    call->split = child == 0 ? CHILD : PARENT;
    call->child = child;
    call->pipe = child == 0 ? ends[1] : ends[0];
}

struct cw_call cw_begin(unsigned seam, unsigned count, const int *descriptors, const unsigned *masks)
{
    int before = errno;
    struct cw_call call = { seam, 0, PLAIN, 0, -1, 0 };
    const unsigned *try_row = pass(seam, count, descriptors, masks);
    if (try_row != NULL)
        forked(&call, try_row);
    call.memory = memory;
    memory = sure_row(cw_is_into, seam, 3, (const unsigned[]){ seam, call.split != PLAIN, memory })[4];
    errno = before;
    return call;
}

/* the memory after the return, by the state of the memory at the callee's end */
static void returned(const struct cw_call *call, unsigned last)
{
    unsigned state = sure_row(cw_is_mem, call->seam, 1, &last)[2];
    memory = sure_row(cw_is_back, call->seam, 4, (const unsigned[]){ call->seam, call->split != PLAIN, call->memory, state })[5];
}

/* what is in the pipe, up to so many bytes */
static size_t heard(int descriptor, unsigned char *bytes, size_t size)
{
    size_t done = 0;
    while (done < size) {
        ssize_t count = read(descriptor, bytes + done, size - done);
        if (count < 0 && errno == EINTR)
            continue;
        if (count <= 0)
            break;
        done += (size_t)count;
    }
    return done;
}

/*
 * The parent takes over the child's last memory, its errno and its result. A child that ended by itself, with exit or a message, ends the program
 * with its status. The child is waited for first: its words are in the pipe by then, so nothing here waits for one that is over, whoever else may
 * hold the pipe's other end.
 */
static int waited(struct cw_call *call, void *result, unsigned size)
{
    unsigned char bytes[WORDS + RESULT];
    struct last_words words;
    int status = 0;
    pid_t ended;
    do
        ended = waitpid(call->child, &status, 0);
    while (ended < 0 && errno == EINTR);
    if (ended > 0)
        fcntl(call->pipe, F_SETFL, O_NONBLOCK);
    size_t got = heard(call->pipe, bytes, WORDS + size);
    close(call->pipe);
    release_signal();
    if (ended > 0 && WIFSIGNALED(status))
        end(NO_RESULT, call->seam, "a process of its own was killed by signal %d", WTERMSIG(status));
    if (got == 0 && ended > 0)
        _exit(WEXITSTATUS(status));
    if (got == 0)
        end(NO_RESULT, call->seam, "a process of its own ended without a result");
    if (got < WORDS + size)
        end(CUT_SHORT, call->seam, "a process of its own wrote %u bytes of %u", (unsigned)got, WORDS + size);
    memcpy(&words, bytes, WORDS);
    if (size > 0)
        memcpy(result, bytes + WORDS, size);
    returned(call, words.memory);
    return words.error;
}

int cw_runs(struct cw_call *call, void *result, unsigned size)
{
    if (call->split == PARENT)
        errno = waited(call, result, size);
    return call->split != PARENT && call->turn == 0;
}

/* the last words of a process of its own, and its result */
static void leave(const struct cw_call *call, const void *result, unsigned size, int error)
{
    unsigned char bytes[WORDS + RESULT];
    const struct last_words words = { memory, error };
    ssize_t count;
    flushed(call->seam);
    memcpy(bytes, &words, WORDS);
    if (size > 0)
        memcpy(bytes + WORDS, result, size);
    do
        count = write(call->pipe, bytes, WORDS + size);
    while (count < 0 && errno == EINTR);
    if (count < 0)
        say("seam %u: the result isn't written: %s", call->seam, strerror(errno));
    _exit(count < 0 ? CUT_SHORT : 0);
}

void cw_end(struct cw_call *call, void *result, unsigned size)
{
    int before = errno;
    call->turn = 1;
    if (call->split == CHILD)
        leave(call, result, size, before);
    returned(call, memory);
    errno = before;
}
