/* Names the running case when the process is about to die in it. */

#define _XOPEN_SOURCE 700

#include "crash.h"

#include <signal.h>
#include <string.h>
#include <unistd.h>

static const char *running_case;
static const char *command;

/* The handler's own stack, so that it can also tell of an overflow of the other. */
static char handler_stack[1 << 16];

static void say(const char *text)
{
    ssize_t written = write(STDOUT_FILENO, text, strlen(text));

    (void)written;
}

static void on_signal(int signal_number)
{
    say(signal_number == SIGALRM ? "NO END of case " : "CRASH in case ");
    say(running_case);
    say("\n  run it alone: ");
    say(command);
    say(running_case);
    say("'\n");
    _exit(1);
}

void name_case_at_crash(const char *case_name, const char *command_before_name)
{
    static const int deadly[] = {SIGSEGV, SIGBUS, SIGILL, SIGFPE, SIGTRAP, SIGABRT, SIGALRM};
    struct sigaction action = {.sa_handler = on_signal, .sa_flags = SA_ONSTACK};
    stack_t stack = {.ss_sp = handler_stack, .ss_size = sizeof handler_stack};

    running_case = case_name;
    command = command_before_name;
    sigaltstack(&stack, NULL);
    for (size_t i = 0; i < sizeof deadly / sizeof *deadly; i++)
        sigaction(deadly[i], &action, NULL);
}
