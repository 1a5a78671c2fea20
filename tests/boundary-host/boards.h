/* Boards made of records of chance, and damaged ones; what a board holds, what is due on it, and what a call left. */
#ifndef BOARDS_H
#define BOARDS_H

#include "chance.h"

/* A board of so many records, all zero. */
void empty_board(struct bytes *board, size_t records);

/*
 * A board of so many records that keeps the rules, at most `filled` of them not zero. Records of a small world concern
 * each other, and in any world some concern a notice: they withdraw it, or have its header, with its year or another.
 */
void made_board(struct bytes *board, size_t records, size_t filled, size_t world);

/* Puts a record at its place on a board that holds it or has an empty one. */
void put_record(struct bytes *board, const uint8_t *record);

/* A year that has this day, counted from 1: often the first, the last, or one beside which both its bytes change. */
int64_t draw_year(int64_t day);

/* Breaks a rule of a board that has a record, most often. */
void damage_board(struct bytes *board);

/* Whether a board may have this length, and whether one of these bytes keeps the rules. */
bool is_board_length(size_t length);
bool keeps_rules(const uint8_t *board, size_t length);

/* Whether a notice carries this header, which is without its station. */
bool holds_notice(const struct bytes *board, const uint8_t *header, size_t length);

/* Whether a board holds a notice that is not withdrawn, and an aired record of its header with its year. */
bool holds_aired_notice(const struct bytes *board);

/* Whether a board holds an aired record of the header of the record at this index, with a year that is not its own. */
bool aired_otherwise(const struct bytes *board, size_t index);

/* Of a board that keeps the rules: the number that a hand-out answers, and after 0 its index. */
unsigned hand_out_number(const struct bytes *board);
size_t hand_out_index(const struct bytes *board);

/* Ends the program unless the board keeps the rules, and holds all that it held before and so many records more. */
void check_grown(const struct bytes *before, const struct bytes *after, size_t by);

/* The notice at an index. Ends the program where there is none. */
const uint8_t *notice_at(const struct bytes *board, size_t index);

/* Ends the program unless the board holds one record more, the aired one of the header and year of a notice on it. */
void check_aired(const struct bytes *before, const struct bytes *after, const uint8_t *notice);

#endif
