#define _DEFAULT_SOURCE

#include "replay.h"

#include <signal.h>
#include <stdio.h>
#include <stdlib.h>
#include <unistd.h>

#define LONGEST_CASE 600
#define STACK 65536

struct place place = {.call = "no call"};

/* On standard error, which keeps nothing back. */
static void tell(const char *sentence)
{
    fflush(stdout);
    fprintf(stderr, "Seed %lu, case %lu, call %lu (%s): %s\n", place.seed, place.case_number, place.calls,
            place.call, sentence);
    fprintf(stderr, "To see this case alone: tests/boundary 1 %lu %lu\n", place.seed, place.case_number);
}

void broken(const char *sentence)
{
    tell(sentence);
    exit(EXIT_FAILURE);
}

void must(bool holds, const char *sentence)
{
    if (!holds)
        broken(sentence);
}

/* What it interrupts is a call of the library, which writes to no stream. */
static void on_signal(int number)
{
    if (number == SIGSEGV || number == SIGBUS)
        tell("A byte was touched that was not lent, or one written that was lent to be read, or the stack is used up.");
    else if (number == SIGALRM)
        tell("It has not ended after ten minutes.");
    else
        tell("The program was ended by a trap.");
    _Exit(EXIT_FAILURE);
}

/* The handler has a stack of its own, since a call may have used up the other. */
void watch(void)
{
    static const int numbers[] = {SIGSEGV, SIGBUS, SIGILL, SIGFPE, SIGABRT, SIGTRAP, SIGALRM};
    static char own[STACK];
    stack_t stack = {.ss_sp = own, .ss_size = sizeof own};
    struct sigaction action = {.sa_handler = on_signal, .sa_flags = SA_ONSTACK};

    if (sigaltstack(&stack, NULL) != 0)
        broken("The handler has no stack.");
    for (size_t i = 0; i < sizeof numbers / sizeof numbers[0]; i++)
        if (sigaction(numbers[i], &action, NULL) != 0)
            broken("A signal has no handler.");
}

void wind_up(void)
{
    alarm(LONGEST_CASE);
}
