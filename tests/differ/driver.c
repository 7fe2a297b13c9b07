/* Calls the library on each file of its input and writes what it answers, as text, for differ.py to hold against the models.

       driver < FRAMES      frames as in exact.h; a record for each, in order:

   = N, L bytes                                 the number of the file, from 0, and its length
   read: NUMBER at OFFSET
   mac input: NUMBER, A..B
   list: NUMBER, N bytes                        and the listing
   pairs: NUMBER, N bytes                       and the lines of the pairs
   words: ..                                    the table; 5*0 is the word 0 five times
   bag B attribute I: NUMBER, bag B, A..B, A..B, elements N: A..B ..    accepted files only, from here on; of many
                                                elements the first and the last 32
   bag B attribute I: 255, again 255            behind the last one
   bag B certificate: NUMBER, bag B             for every bag; the last two lines also for the bag behind the last one
   written and read again                       the file of the table is this file, and has the same table
   fault: ..                                    anything that isn't as p12.h says and no line above would show (checks.c) */
#include "checks.h"
#include "exact.h"

enum { SHOWN = 32 };

static void show_words(const uint16_t *words, size_t count)
{
    printf("words:");
    for (size_t i = 0, same; i < count; i += same) {
        for (same = 1; i + same < count && words[i + same] == words[i]; same++)
            ;
        if (same > 1)
            printf(" %zu*%u", same, words[i]);
        else
            printf(" %u", words[i]);
    }
    putchar('\n');
}

static void show_mac_input(const uint8_t *file, size_t length)
{
    size_t start = 1, end = 1;
    unsigned number = p12_mac_input(file, length, &start, &end);

    printf("mac input: %u, %zu..%zu\n", number, start, end);
}

/* Writes a text into a buffer that is never too short; checks.c goes on with one of the right size. */
static void show_text(const char *name, text_call *call, size_t most, const uint8_t *file, size_t length)
{
    uint8_t *out = painted(most);
    size_t written = 1;
    unsigned number = call(file, length, out, most, &written);

    printf("%s: %u, %zu bytes\n", name, number, written);
    if (number == P12_OK && written <= most) {
        fwrite(out, 1, written, stdout);
        check(as_before(out, written, most), "text: bytes behind it changed");
        check_text(call, file, length, out, written);
    }
    release(out, most);
}

static void show_elements(const struct lent *lent, struct p12_range values)
{
    size_t start = 1, end = 1, count = p12_element(lent->file, lent->length, values.start, values.end, 0, &start, &end);

    printf(", elements %zu:", count);
    for (size_t i = 0; i < count; i++) {
        if (i == SHOWN && count > 2 * SHOWN)
            i = count - SHOWN;
        if (p12_element(lent->file, lent->length, values.start, values.end, i, &start, &end) != count)
            printf(" another count,");
        printf(" %zu..%zu", start, end);
    }
    putchar('\n');
    check_no_element(lent, values, count);
}

/* One attribute, and its elements; the call's number. */
static unsigned show_attribute(const struct lent *lent, size_t bag, size_t i)
{
    uint16_t *words = painted(sizeof(struct p12_attribute));
    unsigned number = p12_attribute(lent->words, P12_TABLE_LENGTH, lent->file, lent->length, bag, i, words, P12_ATTRIBUTE_WORDS);

    printf("bag %zu attribute %zu: %u", bag, i, number);
    if (number == P12_OK) {
        struct p12_attribute row;

        memcpy(&row, words, sizeof row);
        printf(", bag %u, %u..%u, %u..%u", row.bag, row.identifier.start, row.identifier.end, row.values.start, row.values.end);
        show_elements(lent, row.values);
    } else {
        if (number == P12_DONE)
            printf(", again %u", p12_attribute(lent->words, P12_TABLE_LENGTH, lent->file, lent->length, bag, i + 1, words, P12_ATTRIBUTE_WORDS));
        putchar('\n');
        check(as_before(words, 0, sizeof(struct p12_attribute)), "no attribute: the row changed");
    }
    release(words, sizeof(struct p12_attribute));
    check_attribute(lent, bag, i, number);
    return number;
}

static void show_bag(const struct lent *lent, size_t bag)
{
    size_t certificate = 1;
    unsigned number = P12_OK;

    for (size_t i = 0; number == P12_OK && i <= P12_ATTRIBUTE_ROWS; i++)
        number = show_attribute(lent, bag, i);
    number = p12_certificate_for(lent->words, P12_TABLE_LENGTH, lent->file, lent->length, bag, &certificate);
    printf("bag %zu certificate: %u, bag %zu\n", bag, number, certificate);
}

static void show_table(const struct lent *lent)
{
    struct p12_table table;

    memcpy(&table, lent->words, sizeof table);
    for (size_t bag = 0; bag <= table.bag_count && bag <= P12_BAG_ROWS; bag++)
        show_bag(lent, bag);
    if (check_table(lent, &table))
        puts("written and read again");
}

static void show_file(const uint8_t *file, size_t length)
{
    uint16_t *words = painted(sizeof(struct p12_table));
    struct lent lent = { file, length, words };
    size_t offset = 1;
    unsigned number = p12_read(file, length, words, P12_TABLE_LENGTH, &offset);

    printf("read: %u at %zu\n", number, offset);
    show_mac_input(file, length);
    show_text("list", p12_list, P12_LISTING_BYTES, file, length);
    show_text("pairs", p12_pairs, P12_PAIRS_BYTES, file, length);
    show_words(words, P12_TABLE_LENGTH);
    check_other_words(&lent, number, offset);
    if (number == P12_OK)
        show_table(&lent);
    else
        check_unsound(&lent, words, P12_TABLE_LENGTH);
    release(words, sizeof(struct p12_table));
}

int main(void)
{
    uint8_t *file;
    size_t length;

    check_nothing();
    for (size_t n = 0; (file = next_frame(&length)) != NULL; n++) {
        printf("= %zu, %zu bytes\n", n, length);
        show_file(file, length);
        release(file, length);
    }
    return fflush(stdout) ? 2 : 0;
}
