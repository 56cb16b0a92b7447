/* kernel.c - what <sys/capsicum.h> and <sys/procctl.h> of the tests declare: it tells on standard error what it is asked, and grants it */
#include <stdarg.h>
#include <stdio.h>
#include <string.h>
#include <sys/capsicum.h>
#include <sys/procctl.h>
#include <unistd.h>

static const struct { uint64_t bits; const char *name; } names[] = {
    { CAP_READ, "CAP_READ" }, { CAP_WRITE, "CAP_WRITE" }, { CAP_SEEK, "CAP_SEEK" }, { CAP_FSTAT, "CAP_FSTAT" }, { CAP_FTRUNCATE, "CAP_FTRUNCATE" },
    { CAP_FSYNC, "CAP_FSYNC" }, { CAP_FCNTL, "CAP_FCNTL" }, { CAP_IOCTL, "CAP_IOCTL" }, { CAP_EVENT, "CAP_EVENT" }, { CAP_ACCEPT, "CAP_ACCEPT" },
    { CAP_LISTEN, "CAP_LISTEN" }, { CAP_LOOKUP, "CAP_LOOKUP" },
};

static void added(cap_rights_t *rights, va_list some)
{
    uint64_t bits;
    while ((bits = va_arg(some, uint64_t)) != 0)
        rights->cr_rights[bits >> 58] |= bits;
}

cap_rights_t *test_rights_init(cap_rights_t *rights, ...)
{
    va_list some;
    memset(rights, 0, sizeof *rights);
    va_start(some, rights);
    added(rights, some);
    va_end(some);
    return rights;
}

cap_rights_t *test_rights_set(cap_rights_t *rights, ...)
{
    va_list some;
    va_start(some, rights);
    added(rights, some);
    va_end(some);
    return rights;
}

int cap_enter(void)
{
    fprintf(stderr, "cap_enter\n");
    return 0;
}

int cap_rights_limit(int fd, const cap_rights_t *rights)
{
    fprintf(stderr, "cap_rights_limit %d", fd);
    for (size_t place = 0; place < sizeof names / sizeof *names; place++)
        if ((rights->cr_rights[names[place].bits >> 58] & names[place].bits) == names[place].bits)
            fprintf(stderr, " %s", names[place].name);
    fprintf(stderr, "\n");
    return 0;
}

int procctl(idtype_t idtype, id_t id, int cmd, void *data)
{
    int number;
    memcpy(&number, data, sizeof number);
    fprintf(stderr, "procctl %s %d %s %d\n", idtype == P_PID ? "P_PID" : "?", (int)id, cmd == PROC_PDEATHSIG_CTL ? "PROC_PDEATHSIG_CTL" : "?", number);
    return 0;
}
