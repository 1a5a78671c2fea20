/* Hand-outs, each held to what the records of the board make due, and to those before it on that board. */
#ifndef HANDED_H
#define HANDED_H

#include "boards.h"
#include "records.h"

/* The headers that were aired and handed out on a board, each by a record that carries it. Too large for a stack. */
struct handed {
    uint8_t record[STUIVERHAAG_RECORDS_MOST][RECORD];
    size_t count;
    /* Handed out since the last offer. */
    size_t since;
};

/* Before the first hand-out on a board, which may hold aired records. */
void begin_handed(struct handed *handed, const struct bytes *board);

/* Hands out the next header; the number. */
unsigned check_hand_out(struct bytes *board, struct handed *handed);

/* Hands out all that is due; the number of the last hand-out, which gives nothing. */
unsigned check_all_handed(struct bytes *board, struct handed *handed);

/* Prints how often hand-outs were held to what is due. Whether each such comparison was made. */
bool print_handed(void);

#endif
