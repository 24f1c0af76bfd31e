/* The commands of the host. Each is given its words, up to NULL, and its usage, and returns the status to end with. */
#ifndef COMMANDS_H
#define COMMANDS_H

typedef int command(char **words, const char *usage);

command run_parse, run_check_table, run_check, run_coerce, run_plan, run_walk, run_table, run_show_table;

#endif
