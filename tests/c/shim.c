/* Stands between a program and the system, by LD_PRELOAD, so that the tests can try what seldom happens:
 * - TRY_SHORT=1: write takes seven bytes at a time, is interrupted before each, and lets others run after it;
 * - TRY_SIGNAL=n: the signal n comes when something is written;
 * - TRY_SYNC=n: a file cannot be synced, for the error n; TRY_SYNC_FOLDER=n: a folder cannot;
 * - TRY_WAITING=n: the signal n is blocked and waits when the program begins;
 * - TRY_OWNER=1: a file cannot be given to another owner, TRY_OWNER=2: nor to a group;
 * - TRY_MEET=folder: before a file is first written, two programs wait for each other, by files in this folder;
 * - TRY_PUT_AWAY=name: the file of this name is renamed, to name.old, before the first lock is taken. */
#define _GNU_SOURCE
#include <dirent.h>
#include <errno.h>
#include <sched.h>
#include <signal.h>
#include <stdbool.h>
#include <stdio.h>
#include <stdlib.h>
#include <sys/stat.h>
#include <sys/syscall.h>
#include <unistd.h>

enum { PIECE = 7 };

/* The number of a setting, 0 if there is none. */
static int setting(const char *name)
{
    const char *value = getenv(name);
    return value == NULL ? 0 : atoi(value);
}

/* How many files a folder has, with the two that stand for folders. */
static int files_in(const char *name)
{
    int count = 0;
    DIR *folder = opendir(name);
    while (folder != NULL && readdir(folder) != NULL)
        count++;
    if (folder != NULL)
        closedir(folder);
    return count;
}

/* Waits for the other program, at most some seconds. */
static void meet(void)
{
    static bool met = false;
    const char *folder = getenv("TRY_MEET");
    char name[4096];
    if (folder == NULL || met || snprintf(name, sizeof name, "%s/XXXXXX", folder) >= (int)sizeof name)
        return;
    met = close(mkstemp(name)) == 0;
    for (int tries = 0; files_in(folder) < 4 && tries < 5000; tries++)
        usleep(1000);
}

ssize_t write(int file, const void *bytes, size_t length)
{
    static bool interrupted = false;
    bool in_pieces = setting("TRY_SHORT") != 0;
    if (file > STDERR_FILENO)
        meet();
    interrupted = in_pieces && !interrupted;
    if (interrupted) {
        errno = EINTR;
        return -1;
    }
    ssize_t written = syscall(SYS_write, file, bytes, in_pieces && length > PIECE ? PIECE : length);
    if (setting("TRY_SIGNAL") != 0)
        raise(setting("TRY_SIGNAL"));
    if (in_pieces)
        sched_yield();
    return written;
}

int fsync(int file)
{
    struct stat about;
    bool folder = fstat(file, &about) == 0 && S_ISDIR(about.st_mode);
    int error = setting(folder ? "TRY_SYNC_FOLDER" : "TRY_SYNC");
    if (error == 0)
        return (int)syscall(SYS_fsync, file);
    errno = error;
    return -1;
}

int fchown(int file, uid_t owner, gid_t group)
{
    int refused = setting("TRY_OWNER");
    if (refused == 0 || (refused == 1 && owner == (uid_t)-1))
        return (int)syscall(SYS_fchown, file, owner, group);
    errno = EPERM;
    return -1;
}

int flock(int file, int operation)
{
    static bool done = false;
    const char *name = getenv("TRY_PUT_AWAY");
    char old[4096];
    if (name != NULL && !done && snprintf(old, sizeof old, "%s.old", name) < (int)sizeof old)
        done = rename(name, old) == 0;
    return (int)syscall(SYS_flock, file, operation);
}

__attribute__((constructor)) static void let_signal_wait(void)
{
    sigset_t waiting;
    if (setting("TRY_WAITING") == 0)
        return;
    sigemptyset(&waiting);
    sigaddset(&waiting, setting("TRY_WAITING"));
    sigprocmask(SIG_BLOCK, &waiting, NULL);
    raise(setting("TRY_WAITING"));
}
