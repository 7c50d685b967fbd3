/* What both programs share: how they begin and end, messages, numbers, files. */
#ifndef COMMON_H
#define COMMON_H

#include <signal.h>
#include <stdbool.h>
#include <stddef.h>
#include <stdint.h>
#include <stdio.h>

/* Exit statuses. */
enum status {
    STATUS_OK = 0,      /* outcome 0 */
    STATUS_OUTCOME = 1, /* another outcome, which is shown */
    STATUS_FAILED = 2   /* a bad argument, or a file that could not be read or written: a message on standard error */
};

/* The program's name in messages; each program defines it. */
extern const char program[];

/* To be called first: a message goes out in one piece, and a file that grows beyond the system's limit is an error like
 * any other, and not the end of the program. */
void begin(void);

/* Ends standard output and gives the exit status for an outcome; output that could not be written ends the program. */
int finish(uint8_t outcome);

/* A text that someone else wrote: at most this many bytes of it, and '..' if it is longer. A character that could end
 * the line, steer a terminal or turn the direction of writing, and what is no UTF-8, is shown as a question mark. */
void put_text(FILE *out, const char *text, size_t most);

/* A message on standard error. */
void complain(const char *subject, const char *reason);

/* A message on standard error, and the end of the program. */
_Noreturn void fail(const char *subject, const char *reason);

/* Memory, or the end of the program. */
void *allocate(size_t size);

/* The number that `text` writes in digits, base ten; anything else, or a number above `most`, ends the program. */
uint64_t number(const char *subject, const char *text, uint64_t most);

/* Allocated bytes. */
struct bytes {
    uint8_t *at;
    size_t length;
    bool cut; /* these are the front of a file that goes on */
};

/* The file's first bytes, at most this many, so that a file without an end is read no further; or the end of the
 * program. */
struct bytes read_file(const char *path, size_t most);

/* Writes all bytes, or says why not in errno. */
bool write_all(int file, const void *bytes, size_t length);

/* Ends the program if a file that is to be written is one that is read. */
void keep_apart(const char *written, const char *read);

/* Ends the program if a file that is to be written is standard output or standard error. */
void keep_from_output(const char *written);

/* Whether an open file is still the one of this name. */
bool is_at(int file, const char *path);

/* Waits until the folder of a file is on the disk, so that its name is; or says why not in errno. A folder that may not
 * be read, or is of a kind that is not synced, is left to the system. */
bool sync_folder(const char *path);

/* The signals that wait because of hold_signals, and the mask before it. */
struct signals {
    sigset_t held;
    sigset_t before;
};

/* Lets the signals that would end the program wait, save those that it was started to ignore. What SIGKILL and a power
 * cut stop stays as it is then. */
struct signals hold_signals(void);

/* Whether one of them came; one that waited before does not count. */
bool signal_waits(const struct signals *signals);

/* Lets them come again: one that waited ends the program, with its status. */
void release_signals(const struct signals *signals);

#endif
