/* Checks of what p12.h promises beside the answers: memory that is too short or longer than it has to be, words that are
   ignored, tables that aren't sound. Each prints a line `fault: ..` where something isn't as it should be. */
#ifndef CHECKS_H
#define CHECKS_H

#include "p12.h"

/* A file, and its table as p12_read gave it, of P12_TABLE_LENGTH words. */
struct lent {
    const uint8_t *file;
    size_t length;
    const uint16_t *words;
};

void check(int kept, const char *what);

/* Calls with no byte and no word, by NULL pointers; and whether the library is that of the header. */
void check_nothing(void);

/* Reading into fewer words and into more, after a reading that gave this number, offset and these words. */
void check_other_words(const struct lent *lent, unsigned number, size_t offset);

/* A call that writes a text of a file: p12_list, p12_pairs. */
typedef uint8_t text_call(const uint8_t *file, size_t length, uint8_t *out, size_t capacity, size_t *written);

/* The same call into a buffer of the text's size, into a byte less and into none, after one that gave this text. */
void check_text(text_call *call, const uint8_t *file, size_t length, const uint8_t *text, size_t written);

/* Attribute i of a bag into rows of other sizes, after a call that gave this number. */
void check_attribute(const struct lent *lent, size_t bag, size_t i, unsigned number);

/* Elements that aren't there, and ranges that aren't values. */
void check_no_element(const struct lent *lent, struct p12_range values, size_t count);

/* Each call that takes a table, on words over the bytes of `lent` that are no sound table. */
void check_unsound(const struct lent *lent, const uint16_t *words, size_t count);

/* Writing the table, and tables made of it that mean the same or aren't sound. Whether the file was written and read again. */
int check_table(const struct lent *lent, const struct p12_table *table);

#endif
