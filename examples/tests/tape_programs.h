/* tape_programs.h - what the programs of model.py and tape.c share */
#ifndef TAPE_PROGRAMS_H
#define TAPE_PROGRAMS_H

enum { TAPE_DESCRIPTORS = 8 };

/* a program, what may be refused, and the policy's descriptors: their names, their numbers at the start, and the rights that they get */
struct tape_program {
    int (*run)(void);
    unsigned refusable;
    int descriptors;
    const char *names[TAPE_DESCRIPTORS];
    int numbers[TAPE_DESCRIPTORS];
    unsigned rights[TAPE_DESCRIPTORS];
};
extern const struct tape_program tape_programs[];

int tape_open(const char *name);
void tape_close(const char *name, int number);
void tape_label(const char *name);
void tape_call(const char *name);
int tape_return(const char *name, int value);

#endif
