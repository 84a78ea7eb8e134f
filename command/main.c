/* shiftsum: the coder by hand. Finds the subcommand, and looks at options and the count of arguments. */
#include "help.h"
#include "say.h"
#include "words.h"

#include <string.h>

static int is_help(const char *text)
{
    return strcmp(text, "--help") == 0 || strcmp(text, "-h") == 0;
}

/* Takes the options away, which end at '--'; whether --help was among them, and the first that is unknown. */
static int take_options(int *count, char **arguments, const char **unknown)
{
    int i, kept = 0, help = 0, ended = 0;
    *unknown = NULL;
    for (i = 0; i < *count; i++) {
        const char *text = arguments[i];
        if (ended || text[0] != '-' || text[1] == '\0')
            arguments[kept++] = arguments[i];
        else if (strcmp(text, "--") == 0)
            ended = 1;
        else if (is_help(text))
            help = 1;
        else if (*unknown == NULL)
            *unknown = text;
    }
    *count = kept;
    return help;
}

static int wrong_use(const struct command *command, const char *fault)
{
    say("%s; usage: %s", fault, command->usage);
    return WRONG;
}

static int run_command(const struct command *command, int count, char **arguments)
{
    const char *unknown;
    int help = take_options(&count, arguments, &unknown);
    if (unknown != NULL) {
        say("unknown option '%s'; usage: %s", unknown, command->usage);
        return WRONG;
    }
    if (help) {
        help_one(command);
        return DONE;
    }
    if (count < command->least)
        return wrong_use(command, "too few arguments");
    if (command->most >= 0 && count > command->most)
        return wrong_use(command, "too many arguments");
    return command->run != NULL ? command->run(count, arguments) : words_run(command->operation, count, arguments);
}

static int run_book(int count, char **arguments)
{
    const struct command *command = count > 0 ? help_find(book_commands, arguments[0]) : NULL;
    if (command != NULL)
        return run_command(command, count - 1, arguments + 1);
    if (count == 1 && is_help(arguments[0])) {
        help_book();
        return DONE;
    }
    say("book is make or show; usage: %s, %s", book_commands[0].usage, book_commands[1].usage);
    return WRONG;
}

static int unknown_subcommand(const char *name)
{
    say("unknown subcommand '%s'; 'shiftsum --help' lists them", name);
    return WRONG;
}

static int run_help(int count, char **arguments)
{
    const struct command *command = count > 0 ? help_find(commands, arguments[0]) : NULL;
    if (count > 1) {
        say("too many arguments; usage: shiftsum help [SUBCOMMAND]");
        return WRONG;
    }
    if (count == 0)
        help_all();
    else if (command != NULL)
        help_one(command);
    else if (strcmp(arguments[0], "book") == 0)
        help_book();
    else
        return unknown_subcommand(arguments[0]);
    return DONE;
}

static int run(int count, char **arguments)
{
    const struct command *command = count > 0 ? help_find(commands, arguments[0]) : NULL;
    if (command != NULL)
        return run_command(command, count - 1, arguments + 1);
    if (count == 0) {
        say("no subcommand; 'shiftsum --help' lists them");
        return WRONG;
    }
    if (strcmp(arguments[0], "book") == 0)
        return run_book(count - 1, arguments + 1);
    if (strcmp(arguments[0], "help") == 0 || is_help(arguments[0]))
        return run_help(count - 1, arguments + 1);
    if (strcmp(arguments[0], "--version") != 0)
        return unknown_subcommand(arguments[0]);
    if (count == 1)
        return help_version();
    say("too many arguments; usage: shiftsum --version");
    return WRONG;
}

int main(int argc, char **argv)
{
    int status = run(argc > 0 ? argc - 1 : 0, argv + 1);
    return worse(status, say_end());
}
