/*
 * <sys/capsicum.h> as FreeBSD's manual pages give it: cap_enter(2), cap_rights_limit(2), cap_rights_init(3), rights(4). For compiling the header's
 * FreeBSD half where there is no FreeBSD. The numbers are of no meaning; in the kernel's header some rights contain others.
 */
#ifndef TEST_SYS_CAPSICUM_H
#define TEST_SYS_CAPSICUM_H

#include <stdint.h>
#include <sys/types.h>

typedef struct cap_rights {
    uint64_t cr_rights[2];
} cap_rights_t;

#define CAP_READ 0x0000000000000001ULL
#define CAP_WRITE 0x0000000000000002ULL
#define CAP_SEEK 0x000000000000000cULL
#define CAP_FSTAT 0x0000000000080000ULL
#define CAP_FTRUNCATE 0x0000000000000200ULL
#define CAP_FSYNC 0x0000000000000100ULL
#define CAP_FCNTL 0x0000000000008000ULL
#define CAP_IOCTL 0x0400000000000080ULL
#define CAP_EVENT 0x0400000000000020ULL
#define CAP_ACCEPT 0x0000000020000000ULL
#define CAP_LISTEN 0x0000000400000000ULL
#define CAP_LOOKUP 0x0000000000000400ULL

int cap_enter(void);
int cap_rights_limit(int fd, const cap_rights_t *rights);

cap_rights_t *test_rights_init(cap_rights_t *rights, ...);
cap_rights_t *test_rights_set(cap_rights_t *rights, ...);
#define cap_rights_init(...) test_rights_init(__VA_ARGS__, 0ULL)
#define cap_rights_set(...) test_rights_set(__VA_ARGS__, 0ULL)

#endif
