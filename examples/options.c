#include "options.h"

#include <stdbool.h>
#include <stdio.h>
#include <stdlib.h>
#include <string.h>

#include "common.h"
#include "planner.h"

void fail_with_hint(const char *subject, const char *reason)
{
    complain(subject, reason);
    fprintf(stderr, "%s: '%s --help' shows how to call it\n", program, program);
    exit(STATUS_FAILED);
}

/* Whether this option stands anywhere before '--'. */
static bool is_given(int count, char **arguments, const char *name)
{
    for (int at = 1; at < count && strcmp(arguments[at], "--") != 0; at++)
        if (strcmp(arguments[at], name) == 0)
            return true;
    return false;
}

/* '--help' and '--version' ask for nothing else, whatever stands beside them. */
static void answer_help(int count, char **arguments, const struct syntax *syntax)
{
    if (is_given(count, arguments, "--help"))
        syntax->show_help();
    else if (is_given(count, arguments, "--version"))
        printf("%s %s\n", program, PLANNER_VERSION);
    else
        return;
    exit(finish(PLANNER_OK));
}

/* Whether an argument is an option: it begins with a dash, and is neither the dash alone nor a negative number. */
static bool is_option(const char *argument)
{
    return argument[0] == '-' && argument[1] != '\0' && !(argument[1] >= '0' && argument[1] <= '9');
}

/* Takes the value of an option, its own or the next argument, which is none if it begins with two dashes; says whether
 * it is the next. */
static bool take_option(struct option *options, const char *argument, const char *next)
{
    size_t length = strcspn(argument, "=");
    struct option *option = options;
    while (option->name != NULL && !(strlen(option->name) == length && strncmp(option->name, argument, length) == 0))
        option++;
    if (option->name == NULL)
        fail_with_hint(argument, "no such option");
    bool joined = argument[length] == '=';
    option->value = joined ? argument + length + 1 : next;
    if (option->value == NULL || (!joined && strncmp(next, "--", 2) == 0))
        fail_with_hint(option->name, "needs a value");
    return !joined;
}

void read_arguments(int count, char **arguments, const struct syntax *syntax, const char **operands)
{
    answer_help(count, arguments, syntax);
    size_t given = 0;
    bool options_end = false;
    for (int at = 1; at < count; at++) {
        const char *argument = arguments[at];
        if (!options_end && strcmp(argument, "--") == 0)
            options_end = true;
        else if (!options_end && is_option(argument))
            at += take_option(syntax->options, argument, arguments[at + 1]) ? 1 : 0;
        else if (given < syntax->operands)
            operands[given++] = argument;
        else
            fail_with_hint(argument, "one argument too many");
    }
    if (given < syntax->operands)
        fail_with_hint("arguments", syntax->needed);
}
