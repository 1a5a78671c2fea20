#include "times.h"

int64_t days_in(int64_t year)
{
    return 365 + (year % 4 == 0 && (year % 100 != 0 || year % 400 == 0));
}

/* The day of an instant, counted from the first of 2000, downwards before it. */
static int64_t days_to(int64_t seconds)
{
    return (seconds >= 0 ? seconds : seconds - (DAY - 1)) / DAY;
}

/* Year, and day of the year from 0, of a day counted from the first of 2000. */
static int64_t year_and_day(int64_t *day)
{
    int64_t year = 2000;

    while (*day < 0)
        *day += days_in(--year);
    while (*day >= days_in(year))
        *day -= days_in(year++);
    return year;
}

int64_t year_of(int64_t utc)
{
    int64_t day = days_to(utc);

    return year_and_day(&day);
}

int64_t day_of(int64_t utc)
{
    int64_t day = days_to(utc);

    year_and_day(&day);
    return day + 1;
}

int64_t instant(int64_t year, int64_t day, int64_t second)
{
    int64_t days = day - 1;

    while (year > 2000)
        days += days_in(--year);
    return days * DAY + second;
}

void put_moment(struct bytes *out, int64_t utc)
{
    put_number(out, (uint64_t)day_of(utc), 3);
    put_number(out, (uint64_t)(utc % DAY / 3600), 2);
    put_number(out, (uint64_t)(utc % DAY / 60 % 60), 2);
}

static void put_date(struct bytes *out, int64_t day)
{
    int lengths[12] = {31, 28, 31, 30, 31, 30, 31, 31, 30, 31, 30, 31};
    int64_t year = year_and_day(&day);
    unsigned month = 0;

    lengths[1] = (int)days_in(year) - 337;
    while (day >= lengths[month])
        day -= lengths[month++];
    put_number(out, (uint64_t)year, 4);
    put_byte(out, '-');
    put_number(out, month + 1, 2);
    put_byte(out, '-');
    put_number(out, (uint64_t)day + 1, 2);
}

void put_time(struct bytes *out, int64_t utc, int zone)
{
    int64_t local = utc + zone * 60;
    uint64_t second = (uint64_t)(local - days_to(local) * DAY);
    unsigned minutes = (unsigned)(zone < 0 ? -zone : zone);

    put_date(out, days_to(local));
    put_byte(out, 'T');
    put_number(out, second / 3600, 2);
    put_byte(out, ':');
    put_number(out, second / 60 % 60, 2);
    put_byte(out, ':');
    put_number(out, second % 60, 2);
    put_byte(out, zone < 0 ? '-' : '+');
    put_number(out, minutes / 60, 2);
    put_byte(out, ':');
    put_number(out, minutes % 60, 2);
}
