/*
 * capweave_enforce.h - a stand-in for a FreeBSD kernel that says no, for Linux on x86-64 and aarch64, without privileges. Part of capweave.c
 * with -DCW_STANDIN -DCW_ENFORCE; docs/STAND-IN.md tells what it knows. For tests, not for protection: whoever runs in the process can undo it.
 *
 * The first granted limit or enter installs a seccomp filter that traps the calls of the list below. The trap's handler looks at `entered` and at
 * what each descriptor has lost, answers with FreeBSD's ECAPMODE or ENOTCAPABLE, or makes the call again from the one place that the filter lets
 * through. A forked child has the filter and a copy of all this.
 */
#include <linux/audit.h>
#include <linux/filter.h>
#include <linux/seccomp.h>
#include <stddef.h>
#include <stdint.h>
#include <sys/select.h>
#include <sys/syscall.h>
#include <ucontext.h>

#ifndef F_DUPFD_QUERY
#define F_DUPFD_QUERY 1027
#endif

/* FreeBSD's numbers; Linux has other names for them */
enum { NOT_CAPABLE = 93, CAP_MODE = 94 };

/* the twelve rights, and one for all others: a limit keeps none of those */
enum {
    R_READ = 0x1, R_WRITE = 0x2, R_SEEK = 0x4, R_FSTAT = 0x8, R_FTRUNCATE = 0x10, R_FSYNC = 0x20, R_FCNTL = 0x40, R_IOCTL = 0x80,
    R_EVENT = 0x100, R_ACCEPT = 0x200, R_LISTEN = 0x400, R_LOOKUP = 0x800, R_OTHER = 0x1000, R_ALL = 0x1fff
};

/*
 * How a call is judged. The first argument names a descriptor in all but WORLD and those that have a case of their own.
 *   WORLD   names something global: not after enter
 *   HELD    wants the rights on its descriptor
 *   AT      a path below a directory's descriptor: not from the working directory after enter, else wants the rights and the lookup
 *   EMPTY   as AT, but with an empty path HELD
 *   SOCKET  HELD; where it names an address it wants another right too, and is not after enter
 *   OWN     has a case of its own
 */
enum judged { WORLD, HELD, AT, EMPTY, SOCKET, OWN };

struct call {
    int number;
    enum judged how;
    unsigned rights;
    const char *name;
};

#define CALL(name, how, rights) { SYS_##name, how, rights, #name },
static const struct call calls[] = {
    CALL(read, HELD, R_READ) CALL(readv, HELD, R_READ) CALL(pread64, HELD, R_READ | R_SEEK) CALL(preadv, HELD, R_READ | R_SEEK)
    CALL(preadv2, HELD, R_READ | R_SEEK) CALL(getdents64, HELD, R_READ) CALL(recvfrom, HELD, R_READ) CALL(recvmsg, HELD, R_READ)
    CALL(recvmmsg, HELD, R_READ)
    CALL(write, HELD, R_WRITE) CALL(writev, HELD, R_WRITE) CALL(pwrite64, HELD, R_WRITE | R_SEEK) CALL(pwritev, HELD, R_WRITE | R_SEEK)
    CALL(pwritev2, HELD, R_WRITE | R_SEEK) CALL(fallocate, HELD, R_WRITE) CALL(sendto, SOCKET, R_WRITE) CALL(sendmsg, SOCKET, R_WRITE)
    CALL(sendmmsg, SOCKET, R_WRITE)
    CALL(lseek, HELD, R_SEEK) CALL(fstat, HELD, R_FSTAT) CALL(ftruncate, HELD, R_FTRUNCATE) CALL(fsync, HELD, R_FSYNC)
    CALL(fdatasync, HELD, R_FSYNC) CALL(ioctl, HELD, R_IOCTL) CALL(accept, OWN, R_ACCEPT) CALL(accept4, OWN, R_ACCEPT)
    CALL(listen, HELD, R_LISTEN)
    CALL(fchmod, HELD, R_OTHER) CALL(fchown, HELD, R_OTHER) CALL(flock, HELD, R_OTHER) CALL(fstatfs, HELD, R_OTHER)
    CALL(fgetxattr, HELD, R_OTHER) CALL(fsetxattr, HELD, R_OTHER) CALL(flistxattr, HELD, R_OTHER) CALL(fremovexattr, HELD, R_OTHER)
    CALL(shutdown, HELD, R_OTHER) CALL(getsockopt, HELD, R_OTHER) CALL(setsockopt, HELD, R_OTHER) CALL(getsockname, HELD, R_OTHER)
    CALL(getpeername, HELD, R_OTHER)
    CALL(fcntl, OWN, 0) CALL(ppoll, OWN, 0) CALL(pselect6, OWN, 0) CALL(epoll_ctl, OWN, 0) CALL(mmap, OWN, 0) CALL(sendfile, OWN, 0)
    CALL(copy_file_range, OWN, 0) CALL(splice, OWN, 0) CALL(close, OWN, 0) CALL(close_range, OWN, 0) CALL(dup, OWN, 0) CALL(dup3, OWN, 0)
    CALL(kill, OWN, 0) CALL(tgkill, OWN, 0) CALL(rt_sigaction, OWN, 0) CALL(rt_sigprocmask, OWN, 0) CALL(rt_sigsuspend, OWN, 0)
    CALL(execve, OWN, 0) CALL(execveat, OWN, 0) CALL(openat, AT, 0) CALL(openat2, AT, R_OTHER)
    CALL(newfstatat, EMPTY, R_FSTAT) CALL(statx, EMPTY, R_FSTAT) CALL(fchownat, EMPTY, R_OTHER) CALL(utimensat, EMPTY, R_OTHER)
    CALL(faccessat, AT, R_FSTAT) CALL(faccessat2, AT, R_FSTAT) CALL(readlinkat, AT, 0) CALL(mkdirat, AT, R_OTHER) CALL(mknodat, AT, R_OTHER)
    CALL(unlinkat, AT, R_OTHER) CALL(fchmodat, AT, R_OTHER) CALL(name_to_handle_at, AT, R_OTHER) CALL(renameat, OWN, R_OTHER)
    CALL(renameat2, OWN, R_OTHER) CALL(linkat, OWN, R_OTHER) CALL(symlinkat, OWN, R_OTHER)
    CALL(connect, WORLD, R_OTHER) CALL(bind, WORLD, R_OTHER) CALL(fchdir, WORLD, R_OTHER)
    CALL(chdir, WORLD, 0) CALL(chroot, WORLD, 0) CALL(getcwd, WORLD, 0) CALL(truncate, WORLD, 0) CALL(statfs, WORLD, 0)
    CALL(mount, WORLD, 0) CALL(umount2, WORLD, 0) CALL(pivot_root, WORLD, 0) CALL(swapon, WORLD, 0) CALL(swapoff, WORLD, 0)
    CALL(reboot, WORLD, 0) CALL(sethostname, WORLD, 0) CALL(setdomainname, WORLD, 0) CALL(settimeofday, WORLD, 0)
    CALL(clock_settime, WORLD, 0) CALL(ptrace, WORLD, 0) CALL(process_vm_readv, WORLD, 0) CALL(process_vm_writev, WORLD, 0)
    CALL(pidfd_open, WORLD, 0) CALL(shmget, WORLD, 0) CALL(semget, WORLD, 0) CALL(msgget, WORLD, 0) CALL(mq_open, WORLD, 0) CALL(mq_unlink, WORLD, 0)
    CALL(setxattr, WORLD, 0) CALL(lsetxattr, WORLD, 0) CALL(getxattr, WORLD, 0) CALL(lgetxattr, WORLD, 0) CALL(listxattr, WORLD, 0)
    CALL(removexattr, WORLD, 0) CALL(inotify_add_watch, WORLD, 0) CALL(open_by_handle_at, WORLD, 0) CALL(setns, WORLD, 0)
    CALL(unshare, WORLD, 0) CALL(bpf, WORLD, 0) CALL(perf_event_open, WORLD, 0) CALL(keyctl, WORLD, 0) CALL(add_key, WORLD, 0)
    CALL(request_key, WORLD, 0) CALL(acct, WORLD, 0) CALL(quotactl, WORLD, 0) CALL(init_module, WORLD, 0) CALL(delete_module, WORLD, 0)
#ifdef SYS_fchmodat2
    CALL(fchmodat2, AT, R_OTHER)
#endif
#ifdef __x86_64__
    CALL(poll, OWN, 0) CALL(select, OWN, 0) CALL(dup2, OWN, 0) CALL(getdents, HELD, R_READ)
    CALL(open, WORLD, 0) CALL(creat, WORLD, 0) CALL(stat, WORLD, 0) CALL(lstat, WORLD, 0) CALL(access, WORLD, 0) CALL(readlink, WORLD, 0)
    CALL(unlink, WORLD, 0) CALL(rename, WORLD, 0) CALL(mkdir, WORLD, 0) CALL(rmdir, WORLD, 0) CALL(link, WORLD, 0) CALL(symlink, WORLD, 0)
    CALL(mknod, WORLD, 0) CALL(chmod, WORLD, 0) CALL(chown, WORLD, 0) CALL(lchown, WORLD, 0) CALL(utime, WORLD, 0) CALL(utimes, WORLD, 0)
    CALL(futimesat, AT, R_OTHER) CALL(uselib, WORLD, 0)
#endif
};
enum { CALLS = sizeof calls / sizeof *calls, DESCRIPTORS = 65536 };
_Static_assert(CALLS < 250, "a filter's jump goes over at most 255 lines");

static int entered, armed;
static unsigned short lost[DESCRIPTORS];        /* the rights that were taken from a descriptor */

/* The call that the filter lets through: its instruction ends at cw_again_end. */
long cw_again(long number, long a, long b, long c, long d, long e, long f);
extern const char cw_again_end[];
#if defined __x86_64__
#define NATIVE AUDIT_ARCH_X86_64
__asm__(".text\n.globl cw_again\n.hidden cw_again\n.globl cw_again_end\n.hidden cw_again_end\n.type cw_again, @function\n"
        "cw_again:\n mov %rdi, %rax\n mov %rsi, %rdi\n mov %rdx, %rsi\n mov %rcx, %rdx\n mov %r8, %r10\n mov %r9, %r8\n mov 8(%rsp), %r9\n syscall\n"
        "cw_again_end:\n ret\n");
static long argument(const ucontext_t *where, int place)
{
    static const int registers[6] = { REG_RDI, REG_RSI, REG_RDX, REG_R10, REG_R8, REG_R9 };
    return (long)where->uc_mcontext.gregs[registers[place]];
}
static void answer_is(ucontext_t *where, long answer)
{
    where->uc_mcontext.gregs[REG_RAX] = answer;
}
#elif defined __aarch64__
#define NATIVE AUDIT_ARCH_AARCH64
__asm__(".text\n.globl cw_again\n.hidden cw_again\n.globl cw_again_end\n.hidden cw_again_end\n.type cw_again, %function\n"
        "cw_again:\n mov x8, x0\n mov x0, x1\n mov x1, x2\n mov x2, x3\n mov x3, x4\n mov x4, x5\n mov x5, x6\n svc #0\n"
        "cw_again_end:\n ret\n");
static long argument(const ucontext_t *where, int place)
{
    return (long)where->uc_mcontext.regs[place];
}
static void answer_is(ucontext_t *where, long answer)
{
    where->uc_mcontext.regs[0] = (unsigned long)answer;
}
#else
#error "the stand-in that enforces is for x86-64 and aarch64; leave -DCW_ENFORCE out"
#endif

static long again(long number, const long *a)
{
    return cw_again(number, a[0], a[1], a[2], a[3], a[4], a[5]);
}

/* the log isn't held back by a limit on descriptor 2 */
static ssize_t put_log(const char *line, size_t size)
{
    long count = cw_again(SYS_write, STDERR_FILENO, (long)line, (long)size, 0, 0, 0);
    if (count < 0)
        errno = (int)-count;
    return count < 0 ? -1 : count;
}

static int known(long descriptor)
{
    return descriptor >= 0 && descriptor < DESCRIPTORS;
}

static long held(long descriptor, unsigned rights)
{
    return known(descriptor) && (lost[descriptor] & rights) != 0 ? -NOT_CAPABLE : 0;
}

/* what a new descriptor has that comes from this one; the answer is passed on */
static long inherits(long made, long from)
{
    if (known(made))
        lost[made] = known(from) ? lost[from] : 0;
    return made;
}

/* a path below a directory's descriptor must stay below it */
static int leaves(const char *path)
{
    long depth = 0;
    if (path != NULL && path[0] == '/')
        return 1;
    while (path != NULL && *path != 0 && depth >= 0) {
        size_t part = strcspn(path, "/");
        if (part == 2 && path[0] == '.' && path[1] == '.')
            depth--;
        else if (part > 1 || path[0] != '.')
            depth++;
        path += part + strspn(path + part, "/");
    }
    return depth < 0;
}

static long below(int directory, const char *path, unsigned rights)
{
    if (directory == AT_FDCWD)
        return entered ? -CAP_MODE : 0;
    if (held(directory, rights | R_LOOKUP) != 0 || ((entered || (known(directory) && lost[directory] != 0)) && leaves(path)))
        return -NOT_CAPABLE;
    return 0;
}

/* the rights that an open below a directory wants of it */
static unsigned opens_with(int flags)
{
    unsigned rights = (flags & O_ACCMODE) == O_WRONLY ? 0 : R_READ;
    if ((flags & O_ACCMODE) != O_RDONLY)
        rights |= R_WRITE | ((flags & O_APPEND) != 0 ? 0 : R_SEEK);
    return rights | ((flags & O_CREAT) != 0 ? R_OTHER : 0) | ((flags & O_TRUNC) != 0 ? R_FTRUNCATE : 0) | ((flags & O_DSYNC) != 0 ? R_FSYNC : 0);
}

/* The kernel kills a process that makes a trapped call while SIGSYS is blocked or has no handler: so neither comes to be. */
static const uint64_t SYS_BIT = (uint64_t)1 << (SIGSYS - 1);

/* a poll: a descriptor without the right for events is answered POLLNVAL */
static long polled(long number, const long *a)
{
    struct pollfd *some = (struct pollfd *)a[0];
    unsigned long count = (unsigned long)a[1], without = 0;
    struct timespec none = { 0, 0 };
    uint64_t mask;
    long b[6];
    memcpy(b, a, sizeof b);
    for (unsigned long place = 0; place < count; place++)
        if (held(some[place].fd, R_EVENT) != 0) {
            some[place].fd = ~some[place].fd;
            without++;
        }
    if (number == SYS_ppoll) {
        if (without > 0)
            b[2] = (long)&none;
        if (b[3] != 0) {
            memcpy(&mask, (const void *)b[3], sizeof mask);
            mask &= ~SYS_BIT;
            b[3] = (long)&mask;
        }
    } else if (without > 0) {
        b[2] = 0;
    }
    long answer = again(number, b);
    for (unsigned long place = 0; without > 0 && place < count; place++)
        if (some[place].fd < 0 && held(~(long)some[place].fd, R_EVENT) != 0) {
            some[place].fd = ~some[place].fd;
            some[place].revents = POLLNVAL;
            answer += answer >= 0;
        }
    return answer;
}

static long selected(long number, const long *a)
{
    for (long descriptor = 0; descriptor < a[0] && descriptor < FD_SETSIZE; descriptor++)
        for (int set = 1; set <= 3; set++)
            if (a[set] != 0 && FD_ISSET(descriptor, (fd_set *)a[set]) && held(descriptor, R_EVENT) != 0)
                return -NOT_CAPABLE;
    if (number != SYS_pselect6 || a[5] == 0)
        return again(number, a);
    struct { const uint64_t *mask; size_t size; } signals;
    memcpy(&signals, (const void *)a[5], sizeof signals);
    uint64_t mask = signals.mask == NULL ? 0 : *signals.mask & ~SYS_BIT;
    if (signals.mask != NULL)
        signals.mask = &mask;
    const long b[6] = { a[0], a[1], a[2], a[3], a[4], (long)&signals };
    return again(number, b);
}

static long controlled(const long *a)
{
    switch ((int)a[1]) {
    case F_DUPFD:
    case F_DUPFD_CLOEXEC:
        return inherits(again(SYS_fcntl, a), a[0]);
    case F_GETFD:
    case F_SETFD:
    case F_DUPFD_QUERY:
        return again(SYS_fcntl, a);
    case F_GETFL:
    case F_SETFL:
    case F_GETOWN:
    case F_SETOWN:
        return held(a[0], R_FCNTL) != 0 ? -NOT_CAPABLE : again(SYS_fcntl, a);
    default:
        return held(a[0], R_OTHER) != 0 ? -NOT_CAPABLE : again(SYS_fcntl, a);
    }
}

struct kernel_action {
    unsigned long handler, flags, restorer;
    uint64_t mask;
};

static long action_set(const long *a)
{
    struct kernel_action action;
    long b[6];
    if (a[1] == 0)
        return again(SYS_rt_sigaction, a);
    if (a[0] == SIGSYS)
        return 0;
    memcpy(&action, (const void *)a[1], sizeof action);
    action.mask &= ~SYS_BIT;
    memcpy(b, a, sizeof b);
    b[1] = (long)&action;
    return again(SYS_rt_sigaction, b);
}

/* the mask is that of the place where the call was made: it is put back from there when the handler returns */
static long mask_set(ucontext_t *where, const long *a)
{
    uint64_t mask, set = 0;
    memcpy(&mask, &where->uc_sigmask, sizeof mask);
    if (a[1] != 0)
        memcpy(&set, (const void *)a[1], sizeof set);
    if (a[2] != 0)
        memcpy((void *)a[2], &mask, sizeof mask);
    if (a[1] == 0)
        return 0;
    if (a[0] != SIG_BLOCK && a[0] != SIG_UNBLOCK && a[0] != SIG_SETMASK)
        return -EINVAL;
    mask = a[0] == SIG_BLOCK ? mask | set : a[0] == SIG_UNBLOCK ? mask & ~set : set;
    mask &= ~SYS_BIT;
    memcpy(&where->uc_sigmask, &mask, sizeof mask);
    return 0;
}

static long suspended(const long *a)
{
    uint64_t mask;
    memcpy(&mask, (const void *)a[0], sizeof mask);
    mask &= ~SYS_BIT;
    const long b[6] = { (long)&mask, a[1], 0, 0, 0, 0 };
    return again(SYS_rt_sigsuspend, b);
}

static long own_case(ucontext_t *where, const struct call *call, const long *a)
{
    long answer;
    switch (call->number) {
    case SYS_accept:
    case SYS_accept4:
        return held(a[0], R_ACCEPT) != 0 ? -NOT_CAPABLE : inherits(again(call->number, a), a[0]);
    case SYS_fcntl:
        return controlled(a);
#ifdef SYS_poll
    case SYS_poll:
#endif
    case SYS_ppoll:
        return polled(call->number, a);
#ifdef SYS_select
    case SYS_select:
#endif
    case SYS_pselect6:
        return selected(call->number, a);
    case SYS_epoll_ctl:
        return held(a[2], R_EVENT) != 0 ? -NOT_CAPABLE : again(call->number, a);
    case SYS_mmap:
        return (a[3] & 0x20) == 0 && held((int)a[4], R_OTHER) != 0 ? -NOT_CAPABLE : again(call->number, a);   /* 0x20: no file */
    case SYS_sendfile:
        return held(a[0], R_WRITE) != 0 || held(a[1], R_READ | R_SEEK) != 0 ? -NOT_CAPABLE : again(call->number, a);
    case SYS_copy_file_range:
    case SYS_splice:
        return held(a[0], R_READ) != 0 || held(a[2], R_WRITE) != 0 ? -NOT_CAPABLE : again(call->number, a);
    case SYS_close:
        answer = again(call->number, a);
        if (answer == 0 && known(a[0]))
            lost[a[0]] = 0;
        return answer;
    case SYS_close_range:
        answer = again(call->number, a);
        for (unsigned long gone = (unsigned)a[0]; answer == 0 && a[2] == 0 && gone <= (unsigned)a[1] && gone < DESCRIPTORS; gone++)
            lost[gone] = 0;
        return answer;
    case SYS_dup:
#ifdef SYS_dup2
    case SYS_dup2:
#endif
    case SYS_dup3:
        return inherits(again(call->number, a), a[0]);
    case SYS_kill:
    case SYS_tgkill:
        return entered && a[0] != cw_again(SYS_getpid, 0, 0, 0, 0, 0, 0) ? -CAP_MODE : again(call->number, a);
    case SYS_rt_sigaction:
        return action_set(a);
    case SYS_rt_sigprocmask:
        return mask_set(where, a);
    case SYS_rt_sigsuspend:
        return suspended(a);
    case SYS_execve:
    case SYS_execveat:
        if (entered)
            return -CAP_MODE;
        say("stand-in: a program that is executed once a limit is set can't be followed");
        return -ENOSYS;
    case SYS_symlinkat:
        answer = below((int)a[1], (const char *)a[2], R_OTHER);
        return answer != 0 ? answer : again(call->number, a);
    default:            /* SYS_renameat, SYS_renameat2, SYS_linkat */
        answer = below((int)a[0], (const char *)a[1], R_OTHER);
        if (answer == 0)
            answer = below((int)a[2], (const char *)a[3], R_OTHER);
        return answer != 0 ? answer : again(call->number, a);
    }
}

/* whether a message names an address */
static int addressed(long number, const long *a)
{
    if (number == SYS_sendto)
        return a[4] != 0;
    const struct msghdr { void *name; } *message = (const struct msghdr *)a[1];
    return message != NULL && message->name != NULL;
}

static long judged(ucontext_t *where, const struct call *call, const long *a)
{
    const char *path = (const char *)a[1];
    long answer = 0;
    switch (call->how) {
    case WORLD:
        answer = entered ? -CAP_MODE : call->rights != 0 ? held((int)a[0], call->rights) : 0;
        break;
    case HELD:
        answer = held((int)a[0], call->rights);
        break;
    case SOCKET:
        answer = addressed(call->number, a) && entered ? -CAP_MODE : held((int)a[0], call->rights | (addressed(call->number, a) ? R_OTHER : 0));
        break;
    case EMPTY:
        answer = path == NULL || path[0] == 0 ? held((int)a[0], call->rights) : below((int)a[0], path, call->rights);
        break;
    case AT:
        answer = below((int)a[0], path, call->number == SYS_openat ? opens_with((int)a[2]) : call->rights);
        if (answer == 0 && (call->number == SYS_openat || call->number == SYS_openat2))
            return inherits(again(call->number, a), (int)a[0]);
        break;
    case OWN:
        return own_case(where, call, a);
    }
    return answer != 0 ? answer : again(call->number, a);
}

static void trapped(int signal_number, siginfo_t *info, void *context)
{
    ucontext_t *where = context;
    long a[6], answer = -ENOSYS;
    (void)signal_number;
    for (int place = 0; place < 6; place++)
        a[place] = argument(where, place);
    for (unsigned place = 0; place < CALLS; place++)
        if (calls[place].number == info->si_syscall) {
            answer = judged(where, &calls[place], a);
            if ((answer == -CAP_MODE || answer == -NOT_CAPABLE) && getenv("CW_LOG") != NULL) {
                char line[96];
                logged(line, (size_t)snprintf(line, sizeof line, "capweave: %s %d answered %s\n", calls[place].name, (int)a[0],
                                              answer == -CAP_MODE ? "ECAPMODE" : "ENOTCAPABLE"));
            }
            break;
        }
    answer_is(where, answer);
}

#define STATEMENT(code, k) (struct sock_filter)BPF_STMT(code, k)
#define IF_EQUAL(k, yes, no) (struct sock_filter)BPF_JUMP(BPF_JMP | BPF_JEQ | BPF_K, k, yes, no)
#define FIELD(name) STATEMENT(BPF_LD | BPF_W | BPF_ABS, offsetof(struct seccomp_data, name))
#define HALF(name, high) STATEMENT(BPF_LD | BPF_W | BPF_ABS, offsetof(struct seccomp_data, name) + (high) * 4)
#define RETURN(what) STATEMENT(BPF_RET | BPF_K, what)
#define SAME_MEMORY 0x100u              /* CLONE_VM */
#define A_THREAD 0x10000u               /* CLONE_THREAD */

/* the filter: another system's calls and what can't be followed get ENOSYS; the one place gets through; what is listed is trapped */
static int filter(void)
{
    struct sock_filter lines[CALLS + 32];
    uint64_t place = (uint64_t)(uintptr_t)cw_again_end;
    unsigned length = 0;
    lines[length++] = FIELD(arch);
    lines[length++] = IF_EQUAL(NATIVE, 1, 0);
    lines[length++] = RETURN(SECCOMP_RET_ERRNO | ENOSYS);
    lines[length++] = HALF(instruction_pointer, 0);
    lines[length++] = IF_EQUAL((uint32_t)place, 0, 3);
    lines[length++] = HALF(instruction_pointer, 1);
    lines[length++] = IF_EQUAL((uint32_t)(place >> 32), 0, 1);
    lines[length++] = RETURN(SECCOMP_RET_ALLOW);
    lines[length++] = FIELD(nr);
#ifdef __x86_64__
    lines[length++] = (struct sock_filter)BPF_JUMP(BPF_JMP | BPF_JGE | BPF_K, 0x40000000u, 0, 1);
    lines[length++] = RETURN(SECCOMP_RET_ERRNO | ENOSYS);
    lines[length++] = IF_EQUAL(SYS_vfork, 0, 1);
    lines[length++] = RETURN(SECCOMP_RET_ERRNO | ENOSYS);
#endif
    lines[length++] = IF_EQUAL(435, 2, 0);              /* clone3 */
    lines[length++] = IF_EQUAL(425, 1, 0);              /* io_uring_setup */
    lines[length++] = IF_EQUAL(SYS_clone, 1, 6);
    lines[length++] = RETURN(SECCOMP_RET_ERRNO | ENOSYS);
    lines[length++] = HALF(args[0], 0);
    lines[length++] = (struct sock_filter)BPF_JUMP(BPF_JMP | BPF_JSET | BPF_K, SAME_MEMORY, 0, 2);
    lines[length++] = (struct sock_filter)BPF_JUMP(BPF_JMP | BPF_JSET | BPF_K, A_THREAD, 1, 0);
    lines[length++] = RETURN(SECCOMP_RET_ERRNO | ENOSYS);
    lines[length++] = RETURN(SECCOMP_RET_ALLOW);
    for (unsigned call = 0; call < CALLS; call++)
        lines[length++] = IF_EQUAL((unsigned)calls[call].number, CALLS - call, 0);
    lines[length++] = RETURN(SECCOMP_RET_ALLOW);
    lines[length++] = RETURN(SECCOMP_RET_TRAP);
    const struct sock_fprog program = { (unsigned short)length, lines };
    return prctl(PR_SET_NO_NEW_PRIVS, 1, 0, 0, 0) < 0 || prctl(PR_SET_SECCOMP, SECCOMP_MODE_FILTER, &program, 0, 0) < 0 ? -1 : 0;
}

/* the handler, and what the tool has set of signals so far, without SIGSYS */
static void arm(void)
{
    struct sigaction action, other;
    sigset_t set;
    if (armed)
        return;
    for (int number = 1; number < NSIG; number++)
        if (number != SIGSYS && sigaction(number, NULL, &other) == 0 && sigismember(&other.sa_mask, SIGSYS) == 1) {
            sigdelset(&other.sa_mask, SIGSYS);
            sigaction(number, &other, NULL);
        }
    memset(&action, 0, sizeof action);
    action.sa_sigaction = trapped;
    action.sa_flags = SA_SIGINFO | SA_NODEFER | SA_RESTART;
    sigemptyset(&action.sa_mask);
    sigemptyset(&set);
    sigaddset(&set, SIGSYS);
    if (sigaction(SIGSYS, &action, NULL) < 0 || sigprocmask(SIG_UNBLOCK, &set, NULL) < 0 || filter() < 0) {
        say("stand-in: this system lets no filter be set: %s", strerror(errno));
        _exit(NOT_ENFORCED);
    }
    armed = 1;
}

static int kernel_enter(void)
{
    if (refuses("enter")) {
        errno = ENOSYS;
        return -1;
    }
    arm();
    entered = 1;
    return 0;
}

static int kernel_limit(int descriptor, unsigned mask)
{
    if (descriptor < 0 || fcntl(descriptor, F_GETFD) < 0)
        errno = EBADF;
    else if (!known(descriptor))
        errno = EMFILE;
    else if ((lost[descriptor] & mask) != 0)
        errno = NOT_CAPABLE;
    else if (refuses("limit"))
        errno = ENOSYS;
    else {
        arm();
        lost[descriptor] = (unsigned short)(R_ALL & ~mask);
        return 0;
    }
    return -1;
}

/* a number's rights go with its close */
static void kernel_opened(int descriptor)
{
    (void)descriptor;
}
