/* Messages of every kind: alerts, damaged ones, markup and bytes of chance. */
#ifndef MESSAGES_H
#define MESSAGES_H

#include "chance.h"

void any_message(struct bytes *out);

/* Changes, puts in, takes out, repeats or cuts some bytes, or a character; a message may then end inside one. */
void damage(struct bytes *bytes);

#endif
