/* Markup of the subset: leaves and pairs, written as freely as a message may be. */
#ifndef MARKUP_H
#define MARKUP_H

#include "chance.h"

#define NAMESPACE "urn:oasis:names:tc:emergency:cap:1.2"

/* Draws how freely the next message is written, and that it has no fault. */
void draw_style(void);

/*
 * Draws one: a leaf missing, there twice, or holding an element or what the subset does not allow; another root; a
 * declaration that is not UTF-8.
 */
void draw_fault(void);

/* Letters of a sender or an identifier. */
void draw_word(char *word, size_t length);

/*
 * So many characters, some that XML must encode and some outside ASCII among them; white space that collapses too,
 * unless it is one word.
 */
void draw_text(struct bytes *out, size_t length, bool one_word);

/* White space, or none; and what else may stand between elements. */
void put_gap(struct bytes *out);
void put_between(struct bytes *out);

/* A declaration, or none. */
void put_declaration(struct bytes *out);

/* The root's start tag, and tags of a name with the root's prefix. */
void put_root(struct bytes *out);
void put_start(struct bytes *out, const char *name);
void put_end(struct bytes *out, const char *name);

/* An element that holds text alone, in UTF-8, but for the fault. It is left out where the text is NULL. */
void put_leaf(struct bytes *out, const char *name, const char *text);
void put_leaf_of(struct bytes *out, const char *name, const uint8_t *text, size_t length);

/* An eventCode, parameter or geocode. */
void put_pair(struct bytes *out, const char *name, const char *value_name, const char *value);

#endif
