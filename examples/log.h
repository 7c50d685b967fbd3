/* The log: entries one after another, each whole. */
#ifndef LOG_H
#define LOG_H

#include <stdbool.h>
#include <stddef.h>

/* What every entry begins with, a line. */
#define LOG_BEGIN "time="

/* Ends the program, with a message, if there can be no log of this name; makes the file if there is none. */
void check_log(const char *path);

/* Appends an entry, which begins with LOG_BEGIN and ends in a line feed, and after it a line 'end=N', where N is the
 * number of the entry's bytes before that line; waits until both are on the disk. Or leaves the log as it was, with a
 * message. Only one program at a time looks at the log and writes it. */
bool append_entry(const char *path, const char *entry, size_t length);

#endif
