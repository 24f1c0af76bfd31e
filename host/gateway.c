/* The host: a program that calls the gateway core. `gateway --help` lists its commands; a new one is a line of the table below. */
#include "commands.h"
#include "host.h"
#include "plant/run_command.h"
#include "version.h"

#include <stdio.h>
#include <string.h>

static const struct {
    const char *name;
    command *run;
    const char *usage, *help;
} commands[] = {
    {"parse", run_parse, "parse [--json] DOCUMENT..", "reads documents and prints their rows"},
    {"check-table", run_check_table, "check-table [--json] TABLE..", "judges type tables"},
    {"check", run_check, "check [--json] TABLE DOCUMENT..", "judges documents by a type table: accepted, or which rule is broken and where; what is wrong with the table is told once"},
    {"coerce", run_coerce, "coerce [--json] TABLE DOCUMENT [--operation NAME] [--variables FILE] [--row N]",
     "coerces an operation's variables or, with a row, the arguments of the field there"},
    {"plan", run_plan, "plan [--json] TABLE DOCUMENT [--operation NAME] [--dot] [--save FILE]",
     "makes the plan of an operation and prints it; --dot draws it for graphviz, --save keeps it"},
    {"walk", run_walk, "walk [--json] TABLE PLAN|DOCUMENT --type NAME [--operation NAME] [--blocks 0,2] [--true v,w]",
     "walks a saved plan, or that of a document, for an object type: prints its response keys and fields"},
    {"run", run_command, "run [--json] TABLE DOCUMENT [--operation NAME] [--variables FILE] [--drives FILE] [--drive HOST:PORT/UNIT,..] [--timeout MS]",
     "runs an operation on a cooling tower's drives and prints the response as JSON"},
    {"table", run_table, "table [--json] TYPES [-o TABLE] [--unchecked]", "makes the type table of a text of types"},
    {"show-table", run_show_table, "show-table [--json] TABLE [--unchecked]", "prints the text of types of a type table"},
};

enum { COMMANDS = sizeof commands / sizeof *commands };

static int help(void) {
    printf("usage: gateway COMMAND [OPTION..] FILE..\n\nGraphQL documents judged by type tables, values coerced, plans made and walked.\n\nCommands\n");
    for (int i = 0; i < COMMANDS; i++)
        printf("  %s\n      %s\n", commands[i].usage, commands[i].help);
    printf("\nOptions\n"
           "  --json             one JSON object on a line for each document: accepted, refused, or the file that cannot be used\n"
           "  --operation NAME   the operation; without it the only one\n"
           "  --variables FILE   the variables text, a GraphQL object { name: value }; without it {}\n"
           "  --unchecked        write or print a table that breaks a rule or has too many of something, too\n"
           "  --help, --version  this text, or that of a command; the version\n"
           "A file - is standard input. Options stand anywhere behind the command, as --row 3 or --row=3; behind -- all are files.\n"
           "What is wrong with the words of a command is told on standard error alone.\n"
           "\nExit status\n"
           "  0  accepted\n"
           "  1  a document is refused\n"
           "  2  bad usage, or a file cannot be read or written\n"
           "  3  the type table, or a text of types, is refused\n"
           "  4  the variables text, or a value, is refused\n"
           "  5  anything else is refused: no such operation, a plan or walk that cannot be\n"
           "  6  a run has errors in its response\n"
           "Of several documents: 2 if one cannot be read, else the largest.\n");
    return ACCEPTED;
}

static int misused(const char *word) {
    if (word)
        fprintf(stderr, "%s is no command\n", word);
    for (int i = 0; i < COMMANDS; i++)
        fprintf(stderr, "%s gateway %s\n", i ? "      " : "usage:", commands[i].usage);
    fprintf(stderr, "gateway --help says more\n");
    return TROUBLE;
}

static int version(void) {
    printf("gateway %s\n", GATEWAY_VERSION);
    return ACCEPTED;
}

static int run_one(int i, char **words) {
    int status = commands[i].run(words, commands[i].usage);
    if (wanted == VERSION)
        return version();
    if (wanted != HELP)
        return status;
    printf("usage: gateway %s\n%s\n", commands[i].usage, commands[i].help);
    return ACCEPTED;
}

static int run(char **words) {
    if (!words[0])
        return misused(NULL);
    if (wants(words[0]) || strcmp(words[0], "help") == 0)
        return wanted == VERSION ? version() : help();
    for (int i = 0; i < COMMANDS; i++)
        if (strcmp(words[0], commands[i].name) == 0)
            return run_one(i, words + 1);
    return misused(words[0]);
}

int main(int argc, char **argv) {
    int status = run(argv + (argc > 0));
    if (fflush(stdout) == 0 && !ferror(stdout))
        return status;
    perror("standard output");
    return TROUBLE;
}
