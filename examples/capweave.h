/*
 * capweave.h - an example of the header that a woven text includes.
 *
 * It is an example: it is not proved. What CapWeave proves of a woven text takes as a premise that the header does what docs/OUTPUTS.md says.
 * Every name here begins with cw_ or CW_, since a source may use any other. The prologue's rows become one array of numbers, six a row, and
 * the marks become calls of the functions in capweave.c, which look a row up by its seam and the memory that the program is in.
 */
#ifndef CAPWEAVE_H
#define CAPWEAVE_H

/* the kinds of rows, in the order of the prologue */
enum { cw_is_table, cw_is_mem, cw_is_try, cw_is_at, cw_is_opened, cw_is_closed, cw_is_into, cw_is_back, cw_is_done };

#define CW_NONE 0xffffffffu

#define CW_TABLE(version, states, start) static const unsigned cw_table[] = { cw_is_table, start, 0, 0, 0, 0,
#define CW_MEM(memory, state, promise) cw_is_mem, memory, state, 0, 0, 0,
#define CW_LIVE(position, memory)
#define CW_TRY(seam, stage, memory, granted, refused) cw_is_try, seam, stage, memory, granted, refused,
#define CW_AT(seam, memory, after) cw_is_at, seam, memory, after, 0, 0,
#define CW_OPENED(seam, memory, opened, failed) cw_is_opened, seam, memory, opened, failed, 0,
#define CW_CLOSED(seam, memory, after) cw_is_closed, seam, memory, after, 0, 0,
#define CW_INTO(seam, mode, memory, callee) cw_is_into, seam, mode, memory, callee, 0,
#define CW_BACK(seam, mode, memory, exit_state, after) cw_is_back, seam, mode, memory, exit_state, after,
#define CW_DONE cw_is_done, 0, 0, 0, 0, 0 };

/* the policy's limits: their descriptors, as they are now, and their masks; each list has one element more */
#define CW_THE_DESCRIPTOR(index, descriptor, mask) descriptor,
#define CW_THE_MASK(index, descriptor, mask) mask,
#define CW_THE_ONE(index, descriptor, mask) +1
#define CW_SEAM(seam) \
    seam, 0 CW_LIMITS(CW_THE_ONE), (const int[]){ CW_LIMITS(CW_THE_DESCRIPTOR) -1 }, \
        (const unsigned[]){ CW_LIMITS(CW_THE_MASK) 0 }

/* A call: plain; or in a process of its own, in the child or in the parent that waits for it. */
struct cw_call {
    unsigned seam, memory;
    int split, turn, pipe, child;
};

void cw_entry(const unsigned *table, unsigned seam, unsigned count, const int *descriptors, const unsigned *masks);
void cw_label(unsigned seam, unsigned count, const int *descriptors, const unsigned *masks);
void cw_opened(unsigned seam, int descriptor);
void cw_closed(unsigned seam);
struct cw_call cw_begin(unsigned seam, unsigned count, const int *descriptors, const unsigned *masks);
int cw_runs(struct cw_call *call, void *result, unsigned size);
void cw_end(struct cw_call *call, void *result, unsigned size);

/*
 * A policy's labels are for no goto, and a label's mark is an if with an else, since its statement may be a break or the body of an if. What a
 * compiler would say of both is about the marks. All else that it says of the source it says of the woven text.
 */
#ifdef __GNUC__
#define CW_NO_GOTO __attribute__((unused))
#pragma GCC diagnostic ignored "-Wdangling-else"
#pragma GCC diagnostic ignored "-Wmisleading-indentation"
#else
#define CW_NO_GOTO
#endif

#define CW_ENTRY(seam) cw_entry(cw_table, CW_SEAM(seam))
#define CW_LABEL(seam) CW_NO_GOTO if (cw_label(CW_SEAM(seam)), 0) { } else
#define CW_OPEN(seam, variable) for (int cw_turn = 1; cw_turn; cw_turn = 0, cw_opened(seam, variable))
#define CW_CLOSE(seam) for (int cw_turn = 1; cw_turn; cw_turn = 0, cw_closed(seam))
#define CW_CALL(seam) \
    for (struct cw_call cw_this = cw_begin(CW_SEAM(seam)); cw_runs(&cw_this, (void *)0, 0); cw_end(&cw_this, (void *)0, 0))
#define CW_CALLV(seam, variable) \
    for (struct cw_call cw_this = cw_begin(CW_SEAM(seam)); cw_runs(&cw_this, &variable, sizeof variable); \
         cw_end(&cw_this, &variable, sizeof variable))

#endif
