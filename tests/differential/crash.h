#ifndef CRASH_H
#define CRASH_H

/* From now on a crash or a case that does not end prints the case and the command that runs it alone. */
void name_case_at_crash(const char *case_name, const char *command_before_name);

#endif
