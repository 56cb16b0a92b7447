/*
 * tape.h - a kernel whose answers come from a tape, for model.py: capweave.c takes it with -DCW_KERNEL='"tests/tape.h"'. What happens is written down,
 * in the lines of a trace; see tape.c.
 */
int tape_enter(void);
int tape_limit(int descriptor, unsigned mask);
int tape_fork(void);
void tape_told(unsigned seam, const char *primitive, unsigned index, int answer);

static int kernel_enter(void)
{
    return tape_enter();
}

static int kernel_limit(int descriptor, unsigned mask)
{
    return tape_limit(descriptor, mask);
}

static pid_t kernel_fork(void)
{
    return tape_fork();
}

static void kernel_opened(int descriptor)
{
    (void)descriptor;
}

static void told(unsigned seam, const char *primitive, unsigned index, int descriptor, unsigned mask, int answer)
{
    (void)descriptor;
    (void)mask;
    tape_told(seam, primitive, index, answer);
}
