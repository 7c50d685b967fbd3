/* Writes the pruning table of a rule file to a file, or checks one. */
#include <errno.h>
#include <stdbool.h>
#include <stdio.h>
#include <stdlib.h>
#include <string.h>
#include <sys/stat.h>
#include <unistd.h>

#include "common.h"
#include "options.h"
#include "planner.h"
#include "query.h"

const char program[] = "table";

static void show_help(void)
{
    printf("usage: table build RULES REACH TABLE\n"
           "       table check RULES REACH TABLE\n"
           "build writes the pruning table of a rule file to the file TABLE; check says whether the table in the\n"
           "file TABLE is accepted. Both show the outcome in words, and with outcome 0 on two lines more the\n"
           "positions read and the positions written by the table's marked sequences: comma lists, or the word none.\n"
           "  RULES      a rule file, of at most %d bytes; of a longer file the first %d are judged\n"
           "  REACH      1 to %d, in base ten\n"
           "  TABLE      a file; a table has at most %d bytes, and a longer file is not read to its end\n"
           "  --help     show this and do nothing else\n"
           "  --version  show the version and do nothing else\n",
           PLANNER_MAX_FILE, MOST_OF_RULES, PLANNER_MAX_REACH, PLANNER_MAX_TABLE);
    printf("A marked sequence is one that a search leaves out, since an earlier one does the same for no more.\n"
           "Taken as a whole, a sequence reads a position if it asks what it holds or puts that into another, and\n"
           "writes a position if it changes it from some state: what it sets itself before it asks is not read, what\n"
           "it puts back is not written, and what no state admits does neither.\n"
           "A new table is written beside TABLE under a name of its own, TABLE.XXXXXX, then takes its place by a\n"
           "rename and keeps its mode. What fails before that, or a signal, leaves TABLE as it was and nothing\n"
           "beside it, save SIGKILL or a power cut: these may leave TABLE.XXXXXX. What fails later, standard output\n"
           "or the sync of the folder, does not undo it.\n"
           "build refuses a symbolic link: the table would replace the link, and not the file behind it.\n"
           "An operand that begins with a dash comes after --.\n"
           "Exit status: 0 built or accepted, 1 another outcome, 2 a bad argument or a file that could not be\n"
           "read or written.\n");
}

/* A line with a set of positions: a comma list in rising order, or none. */
static void show_positions(const char *touched, uint16_t set)
{
    const char *separator = "";
    printf("positions %s by marked sequences: ", touched);
    for (unsigned position = 1; position <= PLANNER_MAX_POSITIONS; position++)
        if ((set >> (position - 1) & 1) != 0) {
            printf("%s%u", separator, position);
            separator = ",";
        }
    printf("%s\n", set == 0 ? "none" : "");
}

/* Shows an answer, the positions only of a table that is not refused, and gives the exit status for it. */
static int show_answer(uint64_t answer, const char *success, const struct query *query)
{
    uint8_t outcome = planner_outcome(answer);
    printf("outcome %u: ", outcome);
    put_words(stdout, outcome, success, query);
    printf("\n");
    if (outcome == PLANNER_OK) {
        show_positions("read", planner_reads(answer));
        show_positions("written", planner_writes(answer));
    }
    return finish(outcome);
}

/* The pattern of names for a new file beside another. */
static char *name_beside(const char *path)
{
    static const char pattern[] = ".XXXXXX";
    size_t length = strlen(path);
    char *name = allocate(length + sizeof pattern);
    memcpy(name, path, length);
    memcpy(name + length, pattern, sizeof pattern);
    return name;
}

/* Gives a new file the owner and the group of the one that it replaces, where the system lets it; says in *group
 * whether the group is the same now. */
static bool set_owner(int file, const struct stat *old, bool *group)
{
    *group = true;
    if (fchown(file, old->st_uid, old->st_gid) == 0)
        return true;
    if (errno == EPERM && fchown(file, (uid_t)-1, old->st_gid) == 0)
        return true;
    *group = false;
    return errno == EPERM;
}

/* Gives a new file the mode of the one that it replaces, and its owner and group where the system lets it: another
 * group gets no right of the former one's. For NULL the mode that any new file has. */
static bool set_mode(int file, const struct stat *old)
{
    bool group;
    if (old == NULL) {
        mode_t mask = umask(0);
        umask(mask);
        return fchmod(file, 0666 & ~mask) == 0;
    }
    if (!set_owner(file, old, &group))
        return false;
    return fchmod(file, old->st_mode & (group ? 0777 : 0707)) == 0;
}

/* Writes a new file and closes it; says whether all of it is on the disk. */
static bool write_and_close(int file, struct bytes bytes, const struct stat *old)
{
    bool written = write_all(file, bytes.at, bytes.length) && set_mode(file, old) && fsync(file) == 0;
    int error = errno;
    bool closed = close(file) == 0;
    if (!written)
        errno = error;
    return written && closed;
}

/* Removes a file that came to nothing, and ends the program: with the signal that waits, or with a message. */
static _Noreturn void abandon(const char *name, const char *path, const struct signals *signals)
{
    int error = errno;
    if (remove(name) != 0)
        complain(name, "could not be removed");
    release_signals(signals);
    fail(path, strerror(error));
}

/* Puts bytes in place of a file, all or nothing: under a name of this run's own first. Only a regular file is replaced.
 * A signal that would end the program waits meanwhile, so that it leaves nothing behind. */
static void replace_file(const char *path, struct bytes bytes)
{
    struct stat old;
    bool exists = lstat(path, &old) == 0;
    if (exists && S_ISLNK(old.st_mode))
        fail(path, "a symbolic link, which the table would replace: name the file behind it");
    if (exists && !S_ISREG(old.st_mode))
        fail(path, "not a regular file");
    char *name = name_beside(path);
    struct signals signals = hold_signals();
    int file = mkstemp(name);
    if (file < 0)
        fail(path, strerror(errno));
    if (!write_and_close(file, bytes, exists ? &old : NULL) || signal_waits(&signals) || rename(name, path) != 0)
        abandon(name, path, &signals);
    bool synced = sync_folder(path);
    release_signals(&signals);
    free(name);
    if (!synced)
        fail(path, "the table is in place, but its folder could not be synced");
}

/* Builds the table, and writes it unless it is refused. */
static int build(struct query *query, const char *path)
{
    uint64_t answer = build_table(query);
    if (planner_outcome(answer) == PLANNER_OK)
        replace_file(path, query->table);
    return show_answer(answer, "table built", query);
}

/* Checks the table in a file. */
static int check(struct query *query, const char *path)
{
    query->table = read_file(path, MOST_OF_TABLE);
    uint64_t answer = planner_check_table(query->rules.at, query->rules.length, query->table.at, query->table.length,
                                          query->reach);
    return show_answer(answer, "table accepted", query);
}

int main(int count, char **arguments)
{
    static const char needed[] = "build or check, RULES, REACH and TABLE are needed";
    enum { COMMAND, RULES, REACH, TABLE, OPERANDS };
    const char *operands[OPERANDS];
    struct option options[] = {{NULL, NULL}};
    struct syntax syntax = {show_help, needed, OPERANDS, options};
    begin();
    read_arguments(count, arguments, &syntax, operands);
    bool builds = strcmp(operands[COMMAND], "build") == 0;
    if (!builds && strcmp(operands[COMMAND], "check") != 0)
        fail_with_hint("arguments", needed);
    struct query query = {.reach = (size_t)number("REACH", operands[REACH], SIZE_MAX)};
    if (builds)
        keep_apart(operands[TABLE], operands[RULES]);
    query.rules = read_file(operands[RULES], MOST_OF_RULES);
    int status = builds ? build(&query, operands[TABLE]) : check(&query, operands[TABLE]);
    free(query.rules.at);
    free(query.table.at);
    return status;
}
