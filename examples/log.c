#include "log.h"

#include <errno.h>
#include <fcntl.h>
#include <inttypes.h>
#include <stdio.h>
#include <string.h>
#include <sys/file.h>
#include <sys/stat.h>
#include <unistd.h>

#include "common.h"

/* The last line of an entry; room for the longest, and for the line feed before it. */
#define END_KEY "end="
#define END_LINE END_KEY "%" PRIuMAX "\n"
enum { END_KEY_LENGTH = sizeof END_KEY - 1, END_ROOM = 40, BEGIN_LENGTH = sizeof LOG_BEGIN - 1 };

/* Opens a log, which has to be a regular file. Gives NULL, or the reason why it is not open. */
static const char *open_log(const char *path, int *file)
{
    struct stat log;
    *file = open(path, O_RDWR | O_APPEND | O_CREAT | O_NOCTTY, 0666);
    if (*file < 0)
        return strerror(errno);
    const char *reason = fstat(*file, &log) != 0 ? strerror(errno) : S_ISREG(log.st_mode) ? NULL : "not a regular file";
    if (reason != NULL)
        close(*file);
    return reason;
}

void check_log(const char *path)
{
    int file;
    const char *reason = open_log(path, &file);
    if (reason != NULL)
        fail(path, reason);
    if (close(file) != 0)
        fail(path, strerror(errno));
}

/* Waits until no other program has the log. */
static bool lock(int file)
{
    int result;
    do
        result = flock(file, LOCK_EX);
    while (result != 0 && errno == EINTR);
    return result == 0;
}

/* Opens a log and locks it. It may have been removed or put away meanwhile: then the one that has its name now. Gives
 * NULL, or the reason why it is not open. */
static const char *open_locked(const char *path, int *file)
{
    for (;;) {
        const char *reason = open_log(path, file);
        if (reason != NULL)
            return reason;
        bool locked = lock(*file);
        if (locked && is_at(*file, path))
            return NULL;
        reason = strerror(errno);
        close(*file);
        if (!locked)
            return reason;
    }
}

/* Whether a last line of an entry ends here, after a line feed; gives where its entry begins. */
static bool entry_begin(int file, off_t end, off_t *begin)
{
    char text[END_ROOM + 1], again[END_ROOM + 1];
    size_t size = end < END_ROOM ? (size_t)end : END_ROOM;
    if (size == 0 || pread(file, text, size, end - (off_t)size) != (ssize_t)size)
        return false;
    text[size] = '\0';
    size_t line = size - 1;
    while (line > 0 && text[line - 1] != '\n')
        line--;
    if (line == 0 || strncmp(text + line, END_KEY, END_KEY_LENGTH) != 0)
        return false;
    /* a length is written in just one way */
    uintmax_t length = strtoumax(text + line + END_KEY_LENGTH, NULL, 10);
    snprintf(again, sizeof again, END_LINE, length);
    off_t line_begin = end - (off_t)(size - line);
    if (strcmp(again, text + line) != 0 || length > (uintmax_t)line_begin)
        return false;
    *begin = line_begin - (off_t)length;
    return true;
}

/* Whether a log of this length is empty or ends in a whole entry: the length in its last line leads back to an entry's
 * begin, at the log's own or right after the last line of another. */
static bool ends_whole(int file, off_t length)
{
    char text[BEGIN_LENGTH];
    off_t begin, before;
    if (length == 0)
        return true;
    return entry_begin(file, length, &begin) && pread(file, text, BEGIN_LENGTH, begin) == BEGIN_LENGTH
        && memcmp(text, LOG_BEGIN, BEGIN_LENGTH) == 0 && (begin == 0 || entry_begin(file, begin, &before));
}

/* Writes an entry and its last line, and waits until they are on the disk; with the first of a log its name as well. */
static bool write_synced(const char *path, int file, off_t log_length, const char *entry, size_t length)
{
    char end[END_ROOM];
    int end_length = snprintf(end, sizeof end, END_LINE, (uintmax_t)length);
    return write_all(file, entry, length) && write_all(file, end, (size_t)end_length) && fsync(file) == 0
        && (log_length > 0 || sync_folder(path));
}

/* Appends an entry to an open log, or cuts the log back. Gives NULL, or the reason. A signal that would end the program
 * waits meanwhile. */
static const char *append_to(const char *path, int file, const char *entry, size_t length)
{
    struct stat log;
    if (fstat(file, &log) != 0)
        return strerror(errno);
    if (!ends_whole(file, log.st_size))
        return "does not end in a whole entry, nothing is appended";
    const char *reason = NULL;
    struct signals signals = hold_signals();
    if (!write_synced(path, file, log.st_size, entry, length)) {
        reason = strerror(errno);
        if (ftruncate(file, log.st_size) != 0)
            reason = "a part of an entry was written and could not be taken back";
    }
    release_signals(&signals);
    return reason;
}

bool append_entry(const char *path, const char *entry, size_t length)
{
    int file;
    const char *reason = open_locked(path, &file);
    if (reason == NULL) {
        reason = append_to(path, file, entry, length);
        /* closing lets the next program have the log */
        if (close(file) != 0 && reason == NULL)
            reason = strerror(errno);
    }
    if (reason != NULL)
        complain(path, reason);
    return reason == NULL;
}
