#include "common.h"

#include <errno.h>
#include <fcntl.h>
#include <inttypes.h>
#include <stdlib.h>
#include <string.h>
#include <sys/stat.h>
#include <unistd.h>

#include "planner.h"

/* The most bytes of an argument or a path that a message shows. */
enum { SHOWN_IN_MESSAGE = 200 };

/* The signals that are not held: those that cannot be, those of a fault in the program itself, and those that do not
 * end it. */
static const int other_signals[] = {SIGKILL, SIGSEGV, SIGBUS,  SIGFPE, SIGILL,   SIGABRT, SIGTRAP, SIGSYS,
                                    SIGSTOP, SIGTSTP, SIGTTIN, SIGTTOU, SIGCONT, SIGCHLD, SIGURG,  SIGWINCH};
enum { OTHER_SIGNALS = sizeof other_signals / sizeof other_signals[0] };

void begin(void)
{
    if (setvbuf(stderr, NULL, _IOLBF, BUFSIZ) != 0 || signal(SIGXFSZ, SIG_IGN) == SIG_ERR)
        fail("start", strerror(errno));
}

int finish(uint8_t outcome)
{
    bool failed = ferror(stdout) != 0;
    if (fclose(stdout) != 0 || failed)
        fail("standard output", "could not be written");
    return outcome == PLANNER_OK ? STATUS_OK : STATUS_OUTCOME;
}

/* Whether a character could end the line or steer a terminal: C0, DEL, C1, a separator of lines or paragraphs, or one
 * that turns the direction of writing. */
static bool steers(uint32_t character)
{
    return character < 0x20 || (character >= 0x7f && character < 0xa0) || (character >= 0x2028 && character <= 0x202e)
        || (character >= 0x2066 && character <= 0x2069);
}

/* The bytes of the character at the front of a text, or 0 for one that is not shown: one that steers, or what is no
 * UTF-8. */
static size_t character_size(const char *text)
{
    /* the least character of each size, below which its bytes are too long */
    static const uint32_t least[] = {0, 0, 0x80, 0x800, 0x10000};
    const unsigned char *at = (const unsigned char *)text;
    size_t size = at[0] < 0x80 ? 1 : at[0] < 0xc0 ? 0 : at[0] < 0xe0 ? 2 : at[0] < 0xf0 ? 3 : at[0] < 0xf8 ? 4 : 0;
    uint32_t character = size == 1 ? at[0] : at[0] & (0x7fU >> size);
    for (size_t next = 1; next < size; next++) {
        if ((at[next] & 0xc0) != 0x80)
            return 0;
        character = character << 6 | (at[next] & 0x3f);
    }
    bool surrogate = character >= 0xd800 && character <= 0xdfff;
    return character < least[size] || character > 0x10ffff || surrogate || steers(character) ? 0 : size;
}

void put_text(FILE *out, const char *text, size_t most)
{
    const char *at = text;
    while (*at != '\0' && (size_t)(at - text) < most) {
        size_t size = character_size(at);
        if (size == 0)
            fputc('?', out);
        else
            fwrite(at, 1, size, out);
        at += size == 0 ? 1 : size;
    }
    if (*at != '\0')
        fputs("..", out);
}

void complain(const char *subject, const char *reason)
{
    fprintf(stderr, "%s: ", program);
    put_text(stderr, subject, SHOWN_IN_MESSAGE);
    fprintf(stderr, ": %s\n", reason);
}

void fail(const char *subject, const char *reason)
{
    complain(subject, reason);
    exit(STATUS_FAILED);
}

void *allocate(size_t size)
{
    void *memory = malloc(size);
    if (memory == NULL)
        fail("memory", strerror(ENOMEM));
    return memory;
}

uint64_t number(const char *subject, const char *text, uint64_t most)
{
    uint64_t value = 0;
    bool fits = *text != '\0';
    for (const char *at = text; fits && *at != '\0'; at++) {
        uint64_t digit = (uint64_t)(*at - '0');
        fits = *at >= '0' && *at <= '9' && digit <= most && value <= (most - digit) / 10;
        value = value * 10 + digit;
    }
    if (!fits) {
        fprintf(stderr, "%s: %s: '", program, subject);
        put_text(stderr, text, SHOWN_IN_MESSAGE);
        fprintf(stderr, "' is not a number from 0 to %" PRIu64 "\n", most);
        exit(STATUS_FAILED);
    }
    return value;
}

/* Reads until the room is full or the file ends; gives the bytes read, or -1 and errno. */
static ssize_t read_all(int file, uint8_t *at, size_t room)
{
    size_t length = 0;
    while (length < room) {
        ssize_t got = read(file, at + length, room - length);
        if (got == 0)
            break;
        if (got > 0)
            length += (size_t)got;
        else if (errno != EINTR)
            return -1;
    }
    return (ssize_t)length;
}

struct bytes read_file(const char *path, size_t most)
{
    int file = open(path, O_RDONLY | O_NOCTTY);
    if (file < 0)
        fail(path, strerror(errno));
    /* one byte more shows whether the file goes on */
    struct bytes bytes = {.at = allocate(most + 1)};
    ssize_t length = read_all(file, bytes.at, most + 1);
    if (length < 0 || close(file) != 0)
        fail(path, strerror(errno));
    bytes.cut = (size_t)length > most;
    bytes.length = bytes.cut ? most : (size_t)length;
    return bytes;
}

bool write_all(int file, const void *bytes, size_t length)
{
    const uint8_t *at = bytes;
    while (length > 0) {
        ssize_t written = write(file, at, length);
        if (written > 0) {
            at += written;
            length -= (size_t)written;
        } else if (written == 0 || errno != EINTR) {
            errno = written == 0 ? EIO : errno;
            return false;
        }
    }
    return true;
}

/* Whether two descriptions are of one file. */
static bool same_file(const struct stat *one, const struct stat *other)
{
    return one->st_dev == other->st_dev && one->st_ino == other->st_ino;
}

void keep_apart(const char *written, const char *read)
{
    struct stat one, other;
    if (stat(written, &one) == 0 && stat(read, &other) == 0 && same_file(&one, &other))
        fail(written, "would be written over a file that is read");
}

void keep_from_output(const char *written)
{
    struct stat one, other;
    if (stat(written, &one) != 0)
        return;
    if (fstat(STDOUT_FILENO, &other) == 0 && same_file(&one, &other))
        fail(written, "is also standard output");
    if (fstat(STDERR_FILENO, &other) == 0 && same_file(&one, &other))
        fail(written, "is also standard error");
}

bool is_at(int file, const char *path)
{
    struct stat one, other;
    return fstat(file, &one) == 0 && stat(path, &other) == 0 && same_file(&one, &other);
}

bool sync_folder(const char *path)
{
    const char *slash = strrchr(path, '/');
    size_t length = slash == NULL ? 0 : (size_t)(slash - path) + 1;
    char *folder = allocate(length + 2);
    memcpy(folder, path, length);
    memcpy(folder + length, ".", 2);
    int file = open(folder, O_RDONLY | O_DIRECTORY);
    free(folder);
    if (file < 0)
        return errno == EACCES;
    bool synced = fsync(file) == 0 || errno == EINVAL;
    int error = errno;
    bool closed = close(file) == 0;
    if (!synced)
        errno = error;
    return synced && closed;
}

/* Whether a signal would end the program, which was not started to ignore it. */
static bool ends_program(int signal)
{
    struct sigaction action;
    for (size_t at = 0; at < OTHER_SIGNALS; at++)
        if (other_signals[at] == signal)
            return false;
    return sigaction(signal, NULL, &action) == 0 && action.sa_handler != SIG_IGN;
}

struct signals hold_signals(void)
{
    struct signals signals;
    sigemptyset(&signals.held);
    for (int signal = 1; signal <= SIGRTMAX; signal++)
        if (ends_program(signal))
            sigaddset(&signals.held, signal);
    if (sigprocmask(SIG_BLOCK, &signals.held, &signals.before) != 0)
        fail("signals", strerror(errno));
    for (int signal = 1; signal <= SIGRTMAX; signal++)
        if (sigismember(&signals.before, signal) == 1)
            sigdelset(&signals.held, signal);
    return signals;
}

bool signal_waits(const struct signals *signals)
{
    sigset_t waiting;
    if (sigpending(&waiting) != 0)
        return false;
    for (int signal = 1; signal <= SIGRTMAX; signal++)
        if (sigismember(&signals->held, signal) == 1 && sigismember(&waiting, signal) == 1)
            return true;
    return false;
}

void release_signals(const struct signals *signals)
{
    if (sigprocmask(SIG_SETMASK, &signals->before, NULL) != 0)
        fail("signals", strerror(errno));
}
