/* Writing: see check_table in checks.h. */
#include "checks.h"
#include "exact.h"

#include <stddef.h>

enum { WORD = sizeof(uint16_t), BEHIND = 5, SHIFT = 7, UNSOUND = 8, LONG = 40000, LITTLE = 16 };

/* What each word of a table is, by the table's counts and kinds. */
enum role { IGNORED, NAME, START, END, FLAG, LOW, HIGH };

#define PLACE(member) (offsetof(struct p12_table, member) / WORD)

static void ranges(uint8_t *roles, size_t at, size_t count)
{
    for (size_t i = 0; i < count; i++) {
        roles[at + 2 * i] = START;
        roles[at + 2 * i + 1] = END;
    }
}

/* The ranges that a kind of bag uses: identifier, parameters, value. */
static void bag_ranges(uint8_t *roles, size_t parts, uint32_t kind)
{
    if (kind != P12_KEY && kind != P12_NESTED)
        ranges(roles, parts, 1);
    if (kind == P12_SHROUDED_KEY)
        ranges(roles, parts + 2, 1);
    if (kind != P12_NESTED)
        ranges(roles, parts + 4, 1);
}

static void find_roles(const struct p12_table *t, uint8_t *roles)
{
    memset(roles, IGNORED, P12_TABLE_LENGTH);
    memset(roles + PLACE(safe_count), NAME, 3);
    ranges(roles, PLACE(mac), 3);
    ranges(roles, PLACE(mac_salt), 1);
    roles[PLACE(mac_iterations_low)] = LOW;
    roles[PLACE(mac_iterations_high)] = HIGH;
    for (size_t i = 0; i < t->safe_count; i++) {
        roles[PLACE(safes[i].kind)] = NAME;
        if (t->safes[i].kind == P12_ENCRYPTED)
            ranges(roles, PLACE(safes[i].parts), 3);
    }
    for (size_t i = 0; i < t->bag_count; i++) {
        memset(roles + PLACE(bags[i].kind), NAME, 3);
        bag_ranges(roles, PLACE(bags[i].parts), t->bags[i].kind);
        roles[PLACE(bags[i].has_set)] = FLAG;
    }
    for (size_t i = 0; i < t->attribute_count; i++) {
        roles[PLACE(attributes[i].bag)] = NAME;
        ranges(roles, PLACE(attributes[i].identifier), 2);
    }
}

/* Numbers that depend on the file alone. */
static uint32_t dice(uint32_t *state)
{
    *state = *state * 1664525u + 1013904223u;
    return *state >> 8 ^ *state << 24;
}

static uint32_t seed_of(const struct lent *lent)
{
    uint32_t sum = 2166136261u;

    for (size_t i = 0; i < lent->length; i++)
        sum = (sum ^ lent->file[i]) * 16777619u;
    return sum;
}

/* Whether these words over these bytes are written as the file, into a buffer with so many bytes more. */
static int is_written(const struct lent *lent, const uint16_t *words, size_t count, const uint8_t *bytes, size_t length, size_t more)
{
    size_t capacity = lent->length + more, written = 1;
    uint8_t *out = painted(capacity);
    unsigned number = p12_write(words, count, bytes, length, out, capacity, &written);
    int kept = number == P12_OK && written == lent->length && memcmp(out, lent->file, lent->length) == 0 && as_before(out, written, capacity);

    release(out, capacity);
    return kept;
}

static void check_room(const struct lent *lent)
{
    size_t capacity = lent->length - 1, written = 1;
    uint8_t *out = painted(capacity);

    check(is_written(lent, lent->words, P12_TABLE_LENGTH, lent->file, lent->length, 0), "write into an exact buffer");
    check(is_written(lent, lent->words, P12_TABLE_LENGTH, lent->file, lent->length, 100), "write into a longer buffer");
    check(p12_write(lent->words, P12_TABLE_LENGTH, lent->file, lent->length, out, capacity, &written) == P12_SHORT_BUFFER && written == 0,
        "write into a byte less: number or length");
    check(as_before(out, 0, capacity), "write into a byte less: the buffer changed");
    release(out, capacity);
}

static int is_read_again(const struct lent *lent)
{
    uint8_t *out = painted(lent->length);
    uint16_t *words = painted(sizeof(struct p12_table));
    size_t written = 1, offset = 1;
    int kept = p12_write(lent->words, P12_TABLE_LENGTH, lent->file, lent->length, out, lent->length, &written) == P12_OK
        && written == lent->length && p12_read(out, written, words, P12_TABLE_LENGTH, &offset) == P12_OK && offset == 0
        && memcmp(words, lent->words, sizeof(struct p12_table)) == 0;

    release(out, lent->length);
    release(words, sizeof(struct p12_table));
    return kept;
}

/* Words that are ignored are anything, also behind the table. */
static void check_ignored(const struct lent *lent, const uint8_t *roles)
{
    size_t count = P12_TABLE_LENGTH + BEHIND;
    uint16_t *words = exact(count * WORD);
    uint32_t state = seed_of(lent);

    for (size_t i = 0; i < count; i++)
        words[i] = i >= P12_TABLE_LENGTH || roles[i] == IGNORED ? (uint16_t)dice(&state) : lent->words[i];
    check(is_written(lent, words, count, lent->file, lent->length, 0), "write with other words that are ignored");
    release(words, count * WORD);
}

/* The same parts at other places. */
static void check_shifted(const struct lent *lent, const uint8_t *roles)
{
    size_t length = lent->length + SHIFT;
    uint16_t *words = copied(lent->words, sizeof(struct p12_table));
    uint8_t *bytes = painted(length);

    memcpy(bytes + SHIFT, lent->file, lent->length);
    for (size_t i = 0; i < P12_TABLE_LENGTH; i++)
        words[i] += roles[i] == START || roles[i] == END ? SHIFT : 0;
    if (length <= P12_FILE_BYTES)
        check(is_written(lent, words, P12_TABLE_LENGTH, bytes, length, 0), "write with ranges at other places");
    release(words, sizeof(struct p12_table));
    release(bytes, length);
}

static void check_refused(const uint16_t *words, const uint8_t *bytes, size_t length, unsigned due, const char *what)
{
    uint8_t *out = painted(LITTLE);
    size_t written = 1;

    check(p12_write(words, P12_TABLE_LENGTH, bytes, length, out, LITTLE, &written) == due && written == 0, what);
    check(as_before(out, 0, LITTLE), "write that is refused: the buffer changed");
    release(out, LITTLE);
}

/* A digest and a salt that are too long for any file: 9 before 10, and 11 before 9. */
static void check_too_long(const struct lent *lent)
{
    size_t length = lent->length > LONG ? lent->length : LONG;
    uint16_t *words = copied(lent->words, sizeof(struct p12_table));
    uint8_t *bytes = painted(length);

    memcpy(bytes, lent->file, lent->length);
    words[PLACE(mac.value.start)] = words[PLACE(mac_salt.start)] = 0;
    words[PLACE(mac.value.end)] = words[PLACE(mac_salt.end)] = LONG;
    check_refused(words, bytes, length, P12_TOO_LONG, "write of a file that is too long");
    words[PLACE(mac_iterations_low)] = words[PLACE(mac_iterations_high)] = 0;
    check_refused(words, bytes, length, P12_NOT_SOUND, "write of a file that is too long, from a table that isn't sound");
    release(words, sizeof(struct p12_table));
    release(bytes, length);
}

/* Numbers of rows and attributes that are 0 in fewer bits. */
static void check_far_rows(const struct lent *lent, const struct p12_table *table)
{
    const size_t far[] = { (size_t)1 << 8, (size_t)1 << 16, (size_t)1 << 31 << 1, SIZE_MAX };
    uint16_t *row = painted(sizeof(struct p12_attribute));
    size_t bag;

    for (int i = 0; i < 4; i++) {
        bag = 1;
        check(p12_certificate_for(lent->words, P12_TABLE_LENGTH, lent->file, lent->length, far[i], &bag) == P12_NO_ROW && bag == 0,
            "certificate for a row that is far away");
        check(p12_attribute(lent->words, P12_TABLE_LENGTH, lent->file, lent->length, far[i], 0, row, P12_ATTRIBUTE_WORDS) == P12_NO_ROW,
            "attribute of a bag that is far away");
        if (table->bag_count)
            check(p12_attribute(lent->words, P12_TABLE_LENGTH, lent->file, lent->length, 0, far[i], row, P12_ATTRIBUTE_WORDS) == P12_DONE,
                "attribute that is far away");
    }
    check(as_before(row, 0, sizeof(struct p12_attribute)), "row or attribute that is far away: the row changed");
    release(row, sizeof(struct p12_attribute));
}

/* A value that makes the table unsound in a word of this role; the word itself where none does. A range's start is behind its
   end, or its end in front of its start, which is never 0 in a file, or past the bytes. */
static uint16_t unsound_word(enum role role, const uint16_t *word, size_t length, uint32_t choice)
{
    const uint16_t more[] = { 1u << 8, 1u << 15, 0xFF00 };

    switch (role) {
    case START:
        if (word[1] == UINT16_MAX)
            return *word;
        return choice % 2 ? word[1] + 1 : UINT16_MAX;
    case END:
        if (choice % 3 == 0 || length >= UINT16_MAX)
            return word[-1] - 1;
        return choice % 3 == 1 ? (uint16_t)(length + 1) : UINT16_MAX;
    case LOW:
        return word[1] == 0 ? 0 : *word;
    case HIGH:
        return *word | 1u << 15;
    default:
        return *word + more[choice % 3];
    }
}

void check_unsound(const struct lent *lent, const uint16_t *words, size_t count)
{
    uint8_t *out = painted(lent->length);
    uint16_t *row = painted(sizeof(struct p12_attribute));
    size_t written = 1, bag = 1;

    check(p12_write(words, count, lent->file, lent->length, out, lent->length, &written) == P12_NOT_SOUND && written == 0,
        "write of a table that isn't sound: number or length");
    check(as_before(out, 0, lent->length), "write of a table that isn't sound: the buffer changed");
    for (size_t i = 0; i <= P12_BAG_ROWS; i += P12_BAG_ROWS)
        check(p12_attribute(words, count, lent->file, lent->length, i, 0, row, P12_ATTRIBUTE_WORDS) == P12_NOT_SOUND,
            "attribute of a table that isn't sound");
    check(as_before(row, 0, sizeof(struct p12_attribute)), "attribute of a table that isn't sound: the row changed");
    check(p12_certificate_for(words, count, lent->file, lent->length, 0, &bag) == P12_NOT_SOUND && bag == 0,
        "certificate of a table that isn't sound");
    release(out, lent->length);
    release(row, sizeof(struct p12_attribute));
}

/* A sound table cut short; the word that is missing is 0 in most files. */
static void check_fewer(const struct lent *lent, size_t count)
{
    uint16_t *words = copied(lent->words, count * WORD);

    check_unsound(lent, words, count);
    release(words, count * WORD);
}

/* A few words of the table, each made unsound by itself. */
static void check_unsound_words(const struct lent *lent, const uint8_t *roles)
{
    uint32_t state = seed_of(lent);
    uint16_t *words = copied(lent->words, sizeof(struct p12_table));

    for (int done = 0; done < UNSOUND;) {
        size_t i = dice(&state) % P12_TABLE_LENGTH;

        if (roles[i] == IGNORED || roles[i] == FLAG)
            continue;
        words[i] = unsound_word(roles[i], lent->words + i, lent->length, dice(&state));
        if (words[i] == lent->words[i])
            continue;
        check_unsound(lent, words, P12_TABLE_LENGTH);
        words[i] = lent->words[i];
        done++;
    }
    release(words, sizeof(struct p12_table));
}

/* An attribute of a bag with no set. */
static void check_no_set(const struct lent *lent, const struct p12_table *table)
{
    uint16_t *words = copied(lent->words, sizeof(struct p12_table));

    if (table->attribute_count) {
        words[PLACE(bags[table->attributes[0].bag].has_set)] = 0;
        check_unsound(lent, words, P12_TABLE_LENGTH);
    }
    release(words, sizeof(struct p12_table));
}

/* The iterations. */

static void put_iterations(uint16_t *words, uint32_t number)
{
    words[PLACE(mac_iterations_low)] = (uint16_t)(number % 65536);
    words[PLACE(mac_iterations_high)] = (uint16_t)(number / 65536);
}

/* Whether a file ends with this INTEGER, as the iterations do. */
static int ends_with(const uint8_t *file, size_t length, uint32_t number)
{
    for (size_t i = 1; i <= 4; i++, number >>= 8) {
        if (length < i + 2 || file[length - i] != (number & 0xFF))
            return 0;
        if (number < 0x80)
            return file[length - i - 1] == i && file[length - i - 2] == 0x02;
    }
    return 0;
}

/* Written, and read again: both halves. Words behind a table stay as they were. */
static void check_iterations_of(const struct lent *lent, uint16_t *words, uint32_t number)
{
    size_t capacity = P12_FILE_BYTES, size = sizeof(struct p12_table), written = 1, offset = 1;
    uint8_t *out = painted(capacity);
    uint16_t *again = painted(size + BEHIND * WORD);
    struct p12_table table;
    unsigned answer;

    put_iterations(words, number);
    answer = p12_write(words, P12_TABLE_LENGTH, lent->file, lent->length, out, capacity, &written);
    if (answer == P12_OK) {
        check(number == 1 || ends_with(out, written, number), "iterations: not at the end of the file");
        check(p12_read(out, written, again, P12_TABLE_LENGTH + BEHIND, &offset) == P12_OK && offset == 0, "iterations: not read again");
        check(as_before(again, size, size + BEHIND * WORD), "iterations: words behind the table changed");
        memcpy(&table, again, sizeof table);
        check(table.mac_iterations_low == (number & 0xFFFF) && table.mac_iterations_high == number >> 16, "iterations: another half");
        check(p12_iterations(&table) == number, "iterations: the halves joined");
    } else {
        check(answer == P12_TOO_LONG && lent->length > P12_FILE_BYTES - 16, "iterations: not written");
    }
    release(out, capacity);
    release(again, size + BEHIND * WORD);
}

static void check_iterations(const struct lent *lent)
{
    const uint32_t sound[] = { 1, 2, 65535, 65536, 65537, 100000, 0x7FFF0000, 0x7FFFFFFF }, unsound[] = { 0, 1u << 31, 0x80000001, UINT32_MAX };
    uint16_t *words = copied(lent->words, sizeof(struct p12_table));

    for (size_t i = 0; i < sizeof sound / sizeof *sound; i++)
        check_iterations_of(lent, words, sound[i]);
    for (size_t i = 0; i < sizeof unsound / sizeof *unsound; i++) {
        put_iterations(words, unsound[i]);
        check_unsound(lent, words, P12_TABLE_LENGTH);
    }
    release(words, sizeof(struct p12_table));
}

int check_table(const struct lent *lent, const struct p12_table *table)
{
    uint8_t roles[P12_TABLE_LENGTH];

    if (table->safe_count > P12_SAFE_ROWS || table->bag_count > P12_BAG_ROWS || table->attribute_count > P12_ATTRIBUTE_ROWS)
        return 0;
    find_roles(table, roles);
    check_room(lent);
    check_ignored(lent, roles);
    check_fewer(lent, 0);
    check_fewer(lent, P12_TABLE_LENGTH - 1);
    check_shifted(lent, roles);
    check_unsound_words(lent, roles);
    check_no_set(lent, table);
    check_too_long(lent);
    check_iterations(lent);
    check_far_rows(lent, table);
    return is_read_again(lent);
}
