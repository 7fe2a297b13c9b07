/* The listing (docs/TESTS.md) of a file by the C walker, with snprintf. */
#include "walker.h"

#include <stdarg.h>
#include <stdio.h>

struct text {
    char *out;
    size_t capacity, length;
};

#define RANGE "%d..%d"
#define OF(range) (range).start, (range).end

static void put(struct text *text, const char *format, ...)
{
    size_t used = text->length < text->capacity ? text->length : text->capacity;
    va_list arguments;

    va_start(arguments, format);
    text->length += (size_t)vsnprintf(text->out + used, text->capacity - used, format, arguments);
    va_end(arguments);
}

static void put_file(struct text *text, const struct table *t, size_t n)
{
    put(text, "pfx %zu bytes, %u elements\n", n, t->elements);
    put(text, "safes %d, bags %d, attributes %d\n", t->safe_count, t->bag_count, t->attribute_count);
    put(text, "mac input " RANGE ", digest " RANGE ", salt " RANGE ", iterations %u\n", OF(t->mac_input), OF(t->mac_digest),
        OF(t->mac_salt), t->mac_iterations);
}

static void put_safe(struct text *text, const struct safe_row *row, int number)
{
    if (row->kind == SAFE_PLAIN)
        put(text, "safe %d: plain\n", number);
    else
        put(text, "safe %d: encrypted, algorithm " RANGE ", parameters " RANGE ", ciphertext " RANGE "\n", number,
            OF(row->algorithm), OF(row->parameters), OF(row->ciphertext));
}

static int attributes_of(const struct table *t, int bag)
{
    int own = 0;

    for (int i = 0; i < t->attribute_count; i++)
        own += t->attributes[i].bag == bag;
    return own;
}

static void put_bag(struct text *text, const struct table *t, int number)
{
    static const char *const kinds[] = { "", "key", "shrouded key", "certificate", "crl", "secret", "nested" };
    const struct bag_row *row = &t->bags[number];

    put(text, "bag %d: %s, safe %d, in ", number, kinds[row->kind], row->safe);
    if (row->inside)
        put(text, "bag %d", row->inside - 1);
    else
        put(text, "none");
    if (row->kind == BAG_KEY)
        put(text, ", key " RANGE, OF(row->value));
    else if (row->kind == BAG_SHROUDED)
        put(text, ", algorithm " RANGE ", parameters " RANGE ", ciphertext " RANGE, OF(row->type), OF(row->more), OF(row->value));
    else if (row->kind != BAG_NESTED)
        put(text, ", type " RANGE ", value " RANGE, OF(row->type), OF(row->value));
    if (row->has_set)
        put(text, ", attributes %d\n", attributes_of(t, number));
    else
        put(text, ", no attributes\n");
}

static void put_attribute(struct text *text, const struct attribute_row *row, int number)
{
    put(text, "attribute %d: bag %d, type " RANGE ", values " RANGE "\n", number, row->bag, OF(row->type), OF(row->values));
}

size_t walker_list(const uint8_t *file, size_t n, struct table *t, char *out, size_t capacity)
{
    struct text text = { out, capacity, 0 };
    struct fault fault;

    if (!walk(file, n, t, &fault)) {
        put(&text, "refused %u at %u\n", fault.number, fault.offset);
        return text.length;
    }
    put_file(&text, t, n);
    for (int i = 0; i < t->safe_count; i++)
        put_safe(&text, &t->safes[i], i);
    for (int i = 0; i < t->bag_count; i++)
        put_bag(&text, t, i);
    for (int i = 0; i < t->attribute_count; i++)
        put_attribute(&text, &t->attributes[i], i);
    return text.length;
}
