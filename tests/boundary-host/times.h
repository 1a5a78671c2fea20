/* Times: instants in seconds since 2000 began in UTC, their years and days, and how CAP and a header write them. */
#ifndef TIMES_H
#define TIMES_H

#include "chance.h"

#define DAY 86400

/* The instant at which 2100 begins. */
#define END_OF_TIME INT64_C(3155760000)

/* The year of an instant, and the day of that year, from 1. */
int64_t year_of(int64_t utc);
int64_t day_of(int64_t utc);

int64_t days_in(int64_t year);

/* The instant so many seconds into a day of a year from 2000 on. */
int64_t instant(int64_t year, int64_t day, int64_t second);

/* An instant as CAP writes it in a zone of so many minutes. */
void put_time(struct bytes *out, int64_t utc, int zone);

/* JJJHHMM of an instant. */
void put_moment(struct bytes *out, int64_t utc);

#endif
