/* See checks.h. */
#include "checks.h"
#include "exact.h"

typedef char no_padding[sizeof(struct p12_table) == 2816 && P12_TABLE_LENGTH == 1408 && P12_ATTRIBUTE_WORDS == 5 ? 1 : -1];

enum { WORD = sizeof(uint16_t), MORE = 3 };

void check(int kept, const char *what)
{
    if (!kept)
        printf("fault: %s\n", what);
}

void check_nothing(void)
{
    uint16_t *words = painted(sizeof(struct p12_table));
    size_t a = 1, b = 1;

    check(p12_table_length() == P12_TABLE_LENGTH, "the words of a table: the library's number isn't the header's");
    check(p12_read(NULL, 0, NULL, 0, &a) == P12_SHORT_BUFFER && a == 0, "no file and no words: read");
    a = 1;
    check(p12_read(NULL, 0, words, P12_TABLE_LENGTH, &a) == P12_MISSING && a == 0, "no file: read");
    release(words, sizeof(struct p12_table));
    check(p12_list(NULL, 0, NULL, 0, &a) == P12_SHORT_BUFFER && a == 0, "no file: list");
    a = 1;
    check(p12_pairs(NULL, 0, NULL, 0, &a) == P12_SHORT_BUFFER && a == 0, "no file: pairs");
    check(p12_element(NULL, 0, 0, 0, 0, &a, &b) == 0 && a == 0 && b == 0, "no bytes: element");
    a = b = 1;
    check(p12_mac_input(NULL, 0, &a, &b) == P12_MISSING && a == 0 && b == 0, "no file: mac input");
    a = b = 1;
    check(p12_write(NULL, 0, NULL, 0, NULL, 0, &a) == P12_NOT_SOUND && a == 0, "no words: write");
    check(p12_certificate_for(NULL, 0, NULL, 0, 0, &b) == P12_NOT_SOUND && b == 0, "no words: certificate");
    check(p12_attribute(NULL, 0, NULL, 0, 0, 0, NULL, 0) == P12_NOT_SOUND, "no words: attribute");
}

/* Reading. */

/* 10, whatever the file. */
static void check_fewer_words(const struct lent *lent, size_t count)
{
    uint16_t *fewer = painted(count * WORD);
    size_t at = 1;

    check(p12_read(lent->file, lent->length, fewer, count, &at) == P12_SHORT_BUFFER && at == 0,
        "read into fewer words: number or offset");
    check(as_before(fewer, 0, count * WORD), "read into fewer words: they changed");
    release(fewer, count * WORD);
}

void check_other_words(const struct lent *lent, unsigned number, size_t offset)
{
    size_t size = sizeof(struct p12_table), at = 1;
    uint16_t *more = painted(size + MORE * WORD);

    check_fewer_words(lent, 0);
    check_fewer_words(lent, P12_TABLE_LENGTH - 1);
    check(p12_read(lent->file, lent->length, more, P12_TABLE_LENGTH + MORE, &at) == number && at == offset,
        "read into more words: number or offset");
    check(memcmp(more, lent->words, size) == 0, "read into more words: another table");
    check(as_before(more, size, size + MORE * WORD), "read into more words: those behind changed");
    release(more, size + MORE * WORD);
}

/* Texts: the listing, the pairs. */

static void check_short_text(text_call *call, const uint8_t *file, size_t length, size_t size)
{
    uint8_t *out = painted(size);
    size_t got = 1;

    check(call(file, length, out, size, &got) == P12_SHORT_BUFFER && got == 0, "text into a short buffer: number or length");
    check(as_before(out, 0, size), "text into a short buffer: it changed");
    release(out, size);
}

void check_text(text_call *call, const uint8_t *file, size_t length, const uint8_t *text, size_t written)
{
    uint8_t *out = painted(written);
    size_t got = 1;

    check(call(file, length, out, written, &got) == P12_OK && got == written, "text into its size: number or length");
    check(memcmp(out, text, written) == 0, "text into its size: another text");
    release(out, written);
    if (written > 0) {
        check_short_text(call, file, length, 0);
        check_short_text(call, file, length, written - 1);
    }
}

/* Attributes. */

void check_attribute(const struct lent *lent, size_t bag, size_t i, unsigned number)
{
    size_t size = sizeof(struct p12_attribute);
    uint16_t *fewer = painted(size - WORD), *more = painted(size + MORE * WORD);
    unsigned due = number == P12_OK ? P12_SHORT_BUFFER : number;

    check(p12_attribute(lent->words, P12_TABLE_LENGTH, lent->file, lent->length, bag, i, fewer, P12_ATTRIBUTE_WORDS - 1) == due,
        "attribute into fewer words: number");
    check(as_before(fewer, 0, size - WORD), "attribute into fewer words: they changed");
    check(p12_attribute(lent->words, P12_TABLE_LENGTH, lent->file, lent->length, bag, i, more, P12_ATTRIBUTE_WORDS + MORE) == number,
        "attribute into more words: number");
    check(as_before(more, number == P12_OK ? size : 0, size + MORE * WORD), "attribute into more words: those behind changed");
    release(fewer, size - WORD);
    release(more, size + MORE * WORD);
}

/* The number of elements in a range, whatever it is; what is given must lie in the bytes. */
static size_t counted(const struct lent *lent, uint32_t from, uint32_t to, size_t i, size_t *start, size_t *end)
{
    size_t count;

    *start = *end = 1;
    count = p12_element(lent->file, lent->length, from, to, i, start, end);
    check(i < count ? *start < *end && *end <= lent->length : *start == 0 && *end == 0, "element: its range");
    return count;
}

void check_no_element(const struct lent *lent, struct p12_range values, size_t count)
{
    const uint32_t far = 1 << 16;
    size_t start, end;

    check(counted(lent, values.start, values.end, count, &start, &end) == count, "element behind the last: the count");
    check(counted(lent, values.start, values.end, SIZE_MAX, &start, &end) == count, "element past all: the count");
    check(counted(lent, values.start + far, values.end + far, 0, &start, &end) == 0, "element of a range past the bytes");
    if (values.start < values.end)
        check(counted(lent, values.end, values.start, 0, &start, &end) == 0, "element of a range that ends before it starts");
    (void)counted(lent, values.start, UINT32_MAX, 0, &start, &end);
    (void)counted(lent, values.start + 1, values.end + 1, 0, &start, &end);
    (void)counted(lent, UINT32_MAX, values.end, 0, &start, &end);
}
