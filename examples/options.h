/* The command line: operands, and options that stand anywhere among them, '--name VALUE' or '--name=VALUE', up to
 * '--'. A value that begins with two dashes is written in the second form. */
#ifndef OPTIONS_H
#define OPTIONS_H

#include <stddef.h>

/* An option and its value: NULL until it is given; of an option given twice the last counts. */
struct option {
    const char *name;
    const char *value;
};

/* What a program takes. */
struct syntax {
    void (*show_help)(void);
    const char *needed;     /* which operands, in a message */
    size_t operands;        /* how many */
    struct option *options; /* one without a name ends them */
};

/* Reads the operands, and the options into the syntax. '--help' and '--version' are answered wherever they stand. A
 * command line that does not fit ends the program, with a message and a line that points to the help. */
void read_arguments(int count, char **arguments, const struct syntax *syntax, const char **operands);

/* A bad command line: a message, a line that points to the help, and the end of the program. */
_Noreturn void fail_with_hint(const char *subject, const char *reason);

#endif
