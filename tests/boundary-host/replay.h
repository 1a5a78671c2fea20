/* Where the run is, so that whatever breaks can be seen again. */
#ifndef REPLAY_H
#define REPLAY_H

#include <stdbool.h>

struct place {
    unsigned long seed;
    unsigned long case_number;
    /* How many calls were made to the library, the one that runs among them, and its name. */
    unsigned long calls;
    const char *call;
};

extern struct place place;

/* Ends the program with 1 where something is not as it must be: always, or unless that holds which must. */
void broken(const char *sentence);
void must(bool holds, const char *sentence);

/* Has a fault, a trap and a case without end told in the same way. */
void watch(void);

/* A case may take so long; each begins anew. */
void wind_up(void);

#endif
