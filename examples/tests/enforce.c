/*
 * enforce.c - the stand-in that enforces, call by call. It prints a line for each answer that isn't the one that it should be, and ends with 1 where
 * there was one; with 69 where the system lets no filter be set.
 */
#define CW_LIMITS(X)
#include "../capweave.c"

#include <dirent.h>
#include <signal.h>
#include <sys/ioctl.h>
#include <sys/mman.h>
#include <sys/select.h>
#include <sys/socket.h>
#include <sys/stat.h>
#include <sys/time.h>
#include <sys/uio.h>
#include <sys/un.h>

extern char **environ;
static int wrong;
static int *asked;          /* all processes count here */

static void is(const char *what, long answer, int expected)
{
    int got = answer < 0 ? errno : 0;
    ++*asked;
    if (got == expected)
        return;
    wrong++;
    printf("wrong: %s: %d, not %d\n", what, got, expected);
}

#define IS(call, expected) is(#call, (long)(call), expected)

/* what a child finds; it ends with the number of what was wrong */
static void in_child(const char *what, void (*checks)(void))
{
    int status;
    fflush(stdout);
    pid_t child = fork();
    if (child == 0) {
        wrong = 0;
        checks();
        fflush(stdout);
        _exit(wrong > 60 ? 60 : wrong);
    }
    waitpid(child, &status, 0);
    if (WIFEXITED(status) && WEXITSTATUS(status) == NOT_ENFORCED)
        exit(NOT_ENFORCED);
    if (!WIFEXITED(status)) {
        printf("wrong: %s: ended by signal %d\n", what, WTERMSIG(status));
        wrong++;
    } else {
        wrong += WEXITSTATUS(status);
    }
    ++*asked;
}

static int file, other, directory, listening;
static char name[] = "/tmp/enforce-XXXXXX";

/* what is called on a descriptor, and the rights that it wants */
enum { READS, READV, PREAD, WRITES, WRITEV, PWRITE, SEEKS, FSTATS, TRUNCATES, SYNCS, DATASYNC, GETFL, IOCTL, POLLS, PPOLLS, SELECTS, CHMODS, MAPS, ASKED };
static const struct { const char *what; unsigned rights; } asks[ASKED] = {
    { "read", R_READ }, { "readv", R_READ }, { "pread", R_READ | R_SEEK }, { "write", R_WRITE }, { "writev", R_WRITE }, { "pwrite", R_WRITE | R_SEEK },
    { "lseek", R_SEEK }, { "fstat", R_FSTAT }, { "ftruncate", R_FTRUNCATE }, { "fsync", R_FSYNC }, { "fdatasync", R_FSYNC }, { "fcntl", R_FCNTL },
    { "ioctl", R_IOCTL }, { "poll", R_EVENT }, { "ppoll", R_EVENT }, { "select", R_EVENT }, { "fchmod", R_OTHER }, { "mmap", R_OTHER },
};

static long ask(int which)
{
    char bytes[8];
    struct iovec some = { bytes, 1 };
    struct stat status;
    struct pollfd polled = { file, POLLIN, 0 };
    struct timeval none = { 0, 0 };
    fd_set set;
    bytes[0] = 'x';
    switch (which) {
    case READS: return read(file, bytes, 1);
    case READV: return readv(file, &some, 1);
    case PREAD: return pread(file, bytes, 1, 0);
    case WRITES: return write(file, bytes, 1);
    case WRITEV: return writev(file, &some, 1);
    case PWRITE: return pwrite(file, bytes, 1, 0);
    case SEEKS: return lseek(file, 0, SEEK_SET);
    case FSTATS: return fstat(file, &status);
    case TRUNCATES: return ftruncate(file, 0);
    case SYNCS: return fsync(file);
    case DATASYNC: return fdatasync(file);
    case GETFL: return fcntl(file, F_GETFL);
    case IOCTL: return ioctl(file, FIONREAD, bytes);
    case POLLS:
    case PPOLLS:
        if ((which == POLLS ? poll(&polled, 1, -1) : ppoll(&polled, 1, NULL, NULL)) != 1)
            return 0;
        errno = 93;
        return polled.revents == POLLNVAL ? -1 : 0;
    case SELECTS:
        FD_ZERO(&set);
        FD_SET(file, &set);
        return select(file + 1, &set, NULL, NULL, &none);
    case CHMODS: return fchmod(file, 0600);
    default: return (long)mmap(NULL, 1, PROT_READ, MAP_PRIVATE, file, 0);
    }
}

static unsigned taken;          /* the rights that a child gives up, beside all others */

static void without_some(void)
{
    IS(kernel_limit(file, 0xfff & ~taken), 0);
    for (int which = 0; which < ASKED; which++)
        is(asks[which].what, ask(which), (asks[which].rights & (taken | R_OTHER)) != 0 ? 93 : 0);
    IS(kernel_limit(listening, 0xfff & ~taken), 0);
    is("listen", listen(listening, 1), (taken & R_LISTEN) != 0 ? 93 : 0);
    is("accept", accept(listening, NULL, NULL), (taken & R_ACCEPT) != 0 ? 93 : EAGAIN);
    /* an open below a directory, by its flags */
    static const struct { int flags; unsigned rights; } opens[] = {
        { O_RDONLY, R_READ }, { O_WRONLY, R_WRITE | R_SEEK }, { O_WRONLY | O_APPEND, R_WRITE }, { O_RDWR, R_READ | R_WRITE | R_SEEK },
        { O_WRONLY | O_TRUNC, R_WRITE | R_SEEK | R_FTRUNCATE }, { O_RDONLY | O_SYNC, R_READ | R_FSYNC }, { O_RDONLY | O_CREAT, R_OTHER },
    };
    IS(kernel_limit(directory, 0xfff & ~taken), 0);
    for (unsigned which = 0; which < sizeof opens / sizeof *opens; which++)
        is("openat", openat(directory, strrchr(name, '/') + 1, opens[which].flags, 0600), (opens[which].rights & R_OTHER) != 0 || ((opens[which].rights | R_LOOKUP) & taken) != 0 ? 93 : 0);
}

static void each_right(void)
{
    for (unsigned right = 0; right <= 12; right++) {
        taken = right < 12 ? 1u << right : 0;
        in_child("without a right", without_some);
    }
}

static void limits(void)
{
    char bytes[8];
    int ends[2];
    struct stat status;
    struct pollfd polled[2] = { { 0, POLLIN, 0 }, { 0, POLLOUT, 0 } };
    struct timeval none = { 0, 0 };
    struct timespec nothing = { 0, 0 };
    fd_set set;
    IS(kernel_limit(file, R_READ | R_FSTAT), 0);
    IS(kernel_limit(file, R_READ | R_WRITE), 93);
    IS(kernel_limit(77, R_READ), EBADF);
    IS(read(file, bytes, 1), 0);
    IS(pread(file, bytes, 1, 0), 93);
    IS(write(file, "x", 1), 93);
    IS(pwrite(file, "x", 1, 0), 93);
    IS(lseek(file, 0, SEEK_SET), 93);
    IS(fstat(file, &status), 0);
    IS(ftruncate(file, 0), 93);
    IS(fsync(file), 93);
    IS(fcntl(file, F_GETFL), 93);
    IS(fcntl(file, F_GETFD), 0);
    IS(ioctl(file, FIONREAD, bytes), 93);
    IS(fchmod(file, 0600), 93);
    IS((long)mmap(NULL, 1, PROT_READ, MAP_PRIVATE, file, 0), 93);
    polled[0].fd = file;
    polled[1].fd = other;
    if (poll(polled, 2, -1) != 2 || polled[0].revents != POLLNVAL || polled[0].fd != file || polled[1].revents != POLLOUT)
        is("the answer of poll", -1, -1);
    if (ppoll(polled, 2, NULL, NULL) != 2 || polled[0].revents != POLLNVAL || polled[0].fd != file || polled[1].revents != POLLOUT)
        is("the answer of ppoll", -1, -1);
    FD_ZERO(&set);
    FD_SET(file, &set);
    IS(select(file + 1, &set, NULL, NULL, &none), 93);
    FD_ZERO(&set);
    FD_SET(other, &set);
    IS(select(other + 1, NULL, &set, NULL, &none), 0);
    IS(pselect(other + 1, NULL, &set, NULL, &nothing, NULL), 0);
    /* what comes from a limited descriptor is limited, and a number is free of it once it is closed */
    int copy = dup(file);
    IS(write(copy, "x", 1), 93);
    IS(dup2(file, 50), 0);
    IS(write(50, "x", 1), 93);
    IS(dup2(other, 50), 0);
    IS(write(50, "x", 1), 0);
    IS(close(copy), 0);
    IS(open("/dev/null", O_RDWR), 0);
    IS(write(copy, "x", 1), 0);
    IS(fcntl(file, F_DUPFD, 40), 0);
    IS(close(40), 0);
    IS(socketpair(AF_UNIX, SOCK_STREAM, 0, ends), 0);
    IS(dup2(file, 41), 0);
    IS(close(41), 0);
    for (int made = ends[1]; made >= 0 && made < 41;)
        made = socket(AF_UNIX, SOCK_STREAM, 0);
    IS(fcntl(41, F_GETFL), 0);
    IS(fcntl(file, F_DUPFD, 60), 0);
    IS(write(60, "x", 1), 93);
    IS(kernel_limit(file, R_READ), 0);
    IS(fstat(file, &status), 93);
    IS(kernel_limit(file, 0), 0);
    IS(read(file, bytes, 1), 93);
    IS(unlink("/nowhere/at/all"), ENOENT);
    IS(kill(getppid(), 0), 0);
    /* a message to an address wants more than one without */
    struct sockaddr_un address;
    memset(&address, 0, sizeof address);
    address.sun_family = AF_UNIX;
    strcpy(address.sun_path, "/nowhere/at/all");
    int talks = socket(AF_UNIX, SOCK_DGRAM, 0);
    IS(sendto(talks, "x", 1, 0, (struct sockaddr *)&address, sizeof address), ENOENT);
    IS(kernel_limit(talks, R_WRITE), 0);
    IS(send(talks, "x", 1, 0), ENOTCONN);
    IS(sendto(talks, "x", 1, 0, (struct sockaddr *)&address, sizeof address), 93);
    IS(connect(talks, (struct sockaddr *)&address, sizeof address), 93);
    /* what can't be followed */
    pid_t made = vfork();
    if (made == 0)
        _exit(0);
    IS(made, ENOSYS);
    IS(execve("/nowhere", environ, environ), ENOSYS);
}

static void below_a_directory(void)
{
    struct stat status;
    IS(kernel_limit(directory, R_READ | R_LOOKUP | R_FSTAT), 0);
    int made = openat(directory, "enforce.c", O_RDONLY);
    IS(made, 0);
    IS(lseek(made, 0, SEEK_CUR), 93);
    IS(openat(directory, "enforce.c", O_RDWR), 93);
    IS(openat(directory, "../capweave.h", O_RDONLY), 93);
    IS(openat(directory, "/dev/null", O_RDONLY), 93);
    IS(openat(directory, "attempts/../enforce.c", O_RDONLY), 0);
    IS(openat(directory, "./attempts/.././../tests/enforce.c", O_RDONLY), 93);
    IS(openat(directory, "..", O_RDONLY), 93);
    IS(fstatat(directory, "enforce.c", &status, 0), 0);
    IS(unlinkat(directory, "nothing", 0), 93);
    IS(open("/dev/null", O_RDONLY), 0);
    IS(kernel_enter(), 0);
    IS(openat(directory, "enforce.c", O_RDONLY), 0);
    IS(openat(AT_FDCWD, "enforce.c", O_RDONLY), 94);
    IS(kernel_limit(directory, R_READ), 0);
    IS(openat(directory, "enforce.c", O_RDONLY), 93);
}

static void nothing_global(void)
{
    struct stat status;
    struct sockaddr_un address;
    memset(&address, 0, sizeof address);
    address.sun_family = AF_UNIX;
    strcpy(address.sun_path, "/tmp/nowhere");
    IS(open("/dev/null", O_RDONLY), 94);
    IS(creat("/tmp/nowhere", 0600), 94);
    IS(stat("/", &status), 94);
    IS(lstat("/", &status), 94);
    IS(access("/", R_OK), 94);
    IS(unlink("/nowhere"), 94);
    IS(rename("/nowhere", "/there"), 94);
    IS(mkdir("/nowhere", 0700), 94);
    IS(rmdir("/nowhere"), 94);
    IS(link("/nowhere", "/there"), 94);
    IS(symlink("/nowhere", "/there"), 94);
    IS(readlink("/proc/self/exe", (char *)&address.sun_path, 4), 94);
    IS(chmod("/nowhere", 0600), 94);
    IS(chown("/nowhere", 0, 0), 94);
    IS(truncate("/nowhere", 0), 94);
    IS(chdir("/"), 94);
    IS(getcwd((char *)&address.sun_path, 8) == NULL ? -1 : 0, 94);
    IS(opendir("/") == NULL ? -1 : 0, 94);
    IS(fopen("/dev/null", "r") == NULL ? -1 : 0, 94);
    IS(execve("/bin/true", environ, environ), 94);
    IS(kill(getppid(), 0), 94);
    IS(kill(getpid(), 0), 0);
    IS(raise(0), 0);
    int made = socket(AF_UNIX, SOCK_DGRAM, 0);
    IS(made, 0);
    IS(bind(made, (struct sockaddr *)&address, sizeof address), 94);
    IS(connect(made, (struct sockaddr *)&address, sizeof address), 94);
    IS(sendto(made, "x", 1, 0, (struct sockaddr *)&address, sizeof address), 94);
    IS(system("true") == 0 ? 0 : -1, ENOSYS);
}

static void entering(void)
{
    int ends[2];
    char byte;
    IS(kernel_enter(), 0);
    IS(kernel_enter(), 0);
    nothing_global();
    in_child("a child after enter", nothing_global);
    /* all that has no global name goes on */
    IS(write(file, "x", 1), 0);
    IS(lseek(file, 0, SEEK_SET), 0);
    IS(pipe(ends), 0);
    IS(write(ends[1], "x", 1), 0);
    IS(read(ends[0], &byte, 1), 0);
    IS(dup(file), 0);
    IS(kernel_limit(file, R_READ), 0);
    IS(write(file, "x", 1), 93);
    free(malloc(1 << 20));
}

static volatile sig_atomic_t rang;

static void handler(int number)
{
    (void)number;
    rang++;
    IS(open("/dev/null", O_RDONLY), 94);
    IS(write(other, "x", 1), 0);
}

/* whatever a tool does with its signals: the call is answered, and the process isn't killed */
static void signals(void)
{
    sigset_t all, old;
    struct sigaction action;
    memset(&action, 0, sizeof action);
    action.sa_handler = handler;
    sigfillset(&action.sa_mask);
    sigfillset(&all);
    sigaction(SIGUSR1, &action, NULL);
    sigprocmask(SIG_BLOCK, &all, NULL);
    IS(kernel_enter(), 0);
    IS(open("/dev/null", O_RDONLY), 94);
    sigprocmask(SIG_SETMASK, &all, &old);
    if (sigismember(&old, SIGTERM) != 1 || sigismember(&old, SIGSYS) != 0)
        is("the mask before", -1, -1);
    IS(open("/dev/null", O_RDONLY), 94);
    raise(SIGUSR1);
    if (rang != 0)
        is("a blocked signal", -1, -1);
    sigemptyset(&all);
    sigprocmask(SIG_SETMASK, &all, NULL);
    if (rang != 1)
        is("a signal that was blocked", -1, -1);
    sigaction(SIGUSR2, &action, NULL);
    raise(SIGUSR2);
    if (rang != 2)
        is("a signal", -1, -1);
    for (int number = 1; number < NSIG; number++)
        signal(number, SIG_DFL);
    IS(open("/dev/null", O_RDONLY), 94);
    /* a read that a signal ends is ended by it, and one that it doesn't end goes on */
    int ends[2];
    char byte;
    struct itimerval soon = { { 0, 0 }, { 0, 20000 } };
    sigaction(SIGALRM, &action, NULL);
    IS(pipe(ends), 0);
    setitimer(ITIMER_REAL, &soon, NULL);
    IS(read(ends[0], &byte, 1), EINTR);
}

static void limit_there(void)
{
    IS(kernel_limit(file, R_READ), 0);
    IS(write(file, "x", 1), 93);
}

static void refusing(void)
{
    setenv("CW_REFUSE", "limit,enter", 1);
    IS(kernel_enter(), ENOSYS);
    IS(kernel_limit(file, R_READ), ENOSYS);
    setenv("CW_REFUSE", "entering,split", 1);
    IS(kernel_enter(), 0);
    IS(kernel_limit(file, R_READ), 0);
    IS(kernel_fork(), EAGAIN);
}

int main(int count, char **words)
{
    struct sockaddr_un address;
    asked = mmap(NULL, sizeof *asked, PROT_READ | PROT_WRITE, MAP_SHARED | MAP_ANONYMOUS, -1, 0);
    file = mkstemp(name);
    memset(&address, 0, sizeof address);
    address.sun_family = AF_UNIX;
    snprintf(address.sun_path, sizeof address.sun_path, "%s.socket", name);
    listening = socket(AF_UNIX, SOCK_STREAM | SOCK_NONBLOCK, 0);
    if (bind(listening, (struct sockaddr *)&address, sizeof address) < 0 || listen(listening, 1) < 0)
        perror("listen");
    unlink(address.sun_path);
    other = open("/dev/null", O_RDWR);
    directory = open("/tmp", O_RDONLY | O_DIRECTORY);
    in_child("each right", each_right);
    unlink(name);
    directory = open(count > 1 ? words[1] : ".", O_RDONLY | O_DIRECTORY);
    in_child("limits", limits);
    in_child("below a directory", below_a_directory);
    in_child("entering", entering);
    in_child("signals", signals);
    in_child("refusing", refusing);
    /* what a process of its own sets doesn't change the parent */
    in_child("a limit there", limit_there);
    IS(write(file, "x", 1), 0);
    IS(kernel_limit(other, R_READ | R_WRITE), 0);
    in_child("a limit there", limit_there);
    in_child("entering", entering);
    IS(write(file, "x", 1), 0);
    IS(open("/dev/null", O_RDONLY), 0);
    printf("%d answers, %d wrong\n", *asked, wrong);
    return wrong != 0;
}
