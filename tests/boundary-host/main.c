/*
 * Calls the library from C with random and damaged input, every slice against a guard page, and checks each answer.
 *
 *     boundary CALLS SEED         at least so many calls
 *     boundary CALLS SEED CASE    one case of that seed, each call printed before it is made
 *     boundary before, boundary behind, boundary written
 *                                 touches on purpose what no call may touch; must end with 1
 */
#include "activations.h"
#include "both.h"
#include "calls.h"
#include "cases.h"
#include "handed.h"
#include "lent.h"
#include "replay.h"
#include "spellings.h"
#include "years.h"

#include <stdio.h>
#include <stdlib.h>
#include <string.h>

/* So many calls are enough for every number and every kind of text to be answered, and every year to be tried. */
#define ENOUGH 2000000
#define PROGRESS 250000
#define BAD_USAGE 2

static void print_so_far(void)
{
    print_grouped(place.calls);
    printf(" calls in ");
    print_grouped(place.case_number);
    printf(" cases of seed %lu\n", place.seed);
    fflush(stdout);
}

static void run(unsigned long calls)
{
    unsigned long told = 0;
    bool enough;

    for (unsigned long number = 1; place.calls < calls; number++) {
        run_case(number);
        if (place.calls / PROGRESS > told && place.calls < calls) {
            told = place.calls / PROGRESS;
            print_so_far();
        }
    }
    printf("all held: ");
    print_so_far();
    enough = print_counts();
    enough = print_both() && enough;
    enough = print_compared() && enough;
    enough = print_handed() && enough;
    enough = print_years() && enough;
    enough = print_activations() && enough;
    enough = print_spellings() && enough;
    if (!enough && calls >= ENOUGH) {
        fflush(stdout);
        fprintf(stderr, "A number, field, kind of text, short output, year or comparison was never seen: "
                "too little was tested.\n");
        exit(EXIT_FAILURE);
    }
}

static int usage(void)
{
    fprintf(stderr, "Give a number of calls and a seed, and perhaps one case.\n");
    return BAD_USAGE;
}

/* Touches what no call may touch. */
static int touch(const char *what)
{
    static const uint8_t bytes[] = "abc";
    bool before = strcmp(what, "before") == 0;
    volatile uint8_t *lent = lend(0, bytes, 3, before ? AT_START : AT_END, true);

    place.call = "a touch on purpose";
    if (before)
        (void)lent[-1];
    else if (strcmp(what, "behind") == 0)
        (void)lent[3];
    else if (strcmp(what, "written") == 0)
        lent[0] = 'b';
    else
        return usage();
    return EXIT_SUCCESS;
}

static bool decimal(const char *text, unsigned long *number)
{
    *number = 0;
    for (; *text >= '0' && *text <= '9'; text++)
        *number = *number * 10 + (unsigned long)(*text - '0');
    return *text == '\0';
}

int main(int count, char **words)
{
    unsigned long calls, number;

    watch();
    reserve_pages();
    if (count == 2)
        return touch(words[1]);
    if (count < 3 || count > 4 || !decimal(words[1], &calls) || !decimal(words[2], &place.seed))
        return usage();
    if (count == 3) {
        run(calls);
        return EXIT_SUCCESS;
    }
    if (!decimal(words[3], &number))
        return usage();
    print_calls();
    run_case(number);
    printf("all held: %lu calls in case %lu of seed %lu\n", place.calls, number, place.seed);
    return EXIT_SUCCESS;
}
