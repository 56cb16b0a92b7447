/* <sys/procctl.h> as FreeBSD's manual page gives it: procctl(2). The number is of no meaning. */
#ifndef TEST_SYS_PROCCTL_H
#define TEST_SYS_PROCCTL_H

#include <sys/types.h>
#include <sys/wait.h>

#define PROC_PDEATHSIG_CTL 11

int procctl(idtype_t idtype, id_t id, int cmd, void *data);

#endif
