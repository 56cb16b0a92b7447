/*
 * attempt.h - put before a tool by `-include`, it makes the tool try what its policy forbids, whenever it calls one external function of its:
 * -DATTEMPT_AT_READ or -DATTEMPT_AT_ISPRINT tells which. What comes of it goes to the file that ATTEMPT_REPORT names in the environment.
 */
#include <ctype.h>
#include <unistd.h>

ssize_t attempt_read(int descriptor, void *bytes, size_t size);
int attempt_isprint(int byte);

#ifdef ATTEMPT_AT_READ
#define read attempt_read
#endif
#ifdef ATTEMPT_AT_ISPRINT
#undef isprint
#define isprint attempt_isprint
#endif
