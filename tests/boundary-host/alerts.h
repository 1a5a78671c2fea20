/* Alerts as document 01 has them, with and without something wrong. */
#ifndef ALERTS_H
#define ALERTS_H

#include "chance.h"

#define LONGEST_WORD 65
#define MOST_CODES 40
#define MOST_GROUPS 17

/* Who sent a message, and when. The zone is in minutes. */
struct identity {
    char sender[LONGEST_WORD + 1];
    char identifier[LONGEST_WORD + 1];
    int64_t sent;
    int zone;
};

/* An alert before it is written. A text that is NULL leaves its element out. */
struct alert {
    struct identity own;
    const char *status, *type, *scope;
    struct identity group[MOST_GROUPS];
    size_t groups;
    bool has_info;
    const char *originator, *event;
    uint32_t code[MOST_CODES];
    size_t codes;
    /* From sent to expires, in seconds. */
    int64_t lasts;
    /* These stand instead where they are not NULL. */
    const char *odd_sent, *odd_expires, *odd_code, *odd_references;
};

/* A message that is taken. */
void draw_alert(struct alert *alert);

/* Makes it an Update or a Cancel that names the others; or so many that no message has sent. */
void refer_to(struct alert *alert, const char *type, const struct identity *others, size_t count);
void refer_to_unknown(struct alert *alert, size_t count);

/* Writes it, with all that may stand beside what it says. */
void write_alert(struct bytes *out, const struct alert *alert);

/* An alert that is most often taken, and one with something wrong. */
void sound_message(struct bytes *out);
void wrong_message(struct bytes *out);

#endif
