/* See peers.h. */
#include "peers.h"

#include <string.h>

struct p12_table table;
uint8_t written[2 * P12_FILE_BYTES];
uint8_t listing[P12_LISTING_BYTES];
struct subjects subjects;

static int is_key(const struct p12_bag *bag)
{
    return bag->kind == P12_KEY || bag->kind == P12_SHROUDED_KEY;
}

static void find_attribute(void)
{
    for (uint32_t i = 0; i < table.attribute_count; i++) {
        size_t bag = table.attributes[i].bag;

        if (i == 0 || bag > subjects.bag) {
            subjects.bag = bag;
            subjects.attribute = 0;
        } else if (bag == subjects.bag) {
            subjects.attribute++;
        }
    }
}

static void find_key(void)
{
    for (uint32_t i = 0; i < table.bag_count; i++)
        if (is_key(&table.bags[i]) && subjects.keys++ == 0)
            subjects.key = i;
}

int prepare(const uint8_t *file, size_t n)
{
    memset(&subjects, 0, sizeof subjects);
    if (!call_read(file, n))
        return 0;
    find_attribute();
    find_key();
    return 1;
}

size_t call_read(const uint8_t *file, size_t n)
{
    size_t offset;

    return p12_read(file, n, p12_words(&table), P12_TABLE_LENGTH, &offset) == P12_OK ? table.elements : 0;
}

size_t call_write(const uint8_t *file, size_t n)
{
    size_t length;

    p12_write(p12_words(&table), P12_TABLE_LENGTH, file, n, written, sizeof written, &length);
    return length;
}

size_t call_mac_input(const uint8_t *file, size_t n)
{
    size_t start, end;

    p12_mac_input(file, n, &start, &end);
    return end - start;
}

size_t call_list(const uint8_t *file, size_t n)
{
    size_t length;

    p12_list(file, n, listing, sizeof listing, &length);
    return length;
}

size_t call_pairs(const uint8_t *file, size_t n)
{
    size_t length;

    p12_pairs(file, n, listing, sizeof listing, &length);
    return length;
}

static uint8_t attribute(const uint8_t *file, size_t n, size_t bag, size_t i)
{
    struct p12_attribute row;

    return p12_attribute(p12_words(&table), P12_TABLE_LENGTH, file, n, bag, i, (uint16_t *)&row, P12_ATTRIBUTE_WORDS);
}

static uint8_t certificate_for(const uint8_t *file, size_t n, size_t key)
{
    size_t bag;

    return p12_certificate_for(p12_words(&table), P12_TABLE_LENGTH, file, n, key, &bag);
}

size_t call_attribute(const uint8_t *file, size_t n)
{
    return attribute(file, n, subjects.bag, subjects.attribute) == P12_OK;
}

size_t call_certificate_for(const uint8_t *file, size_t n)
{
    return certificate_for(file, n, subjects.key) == P12_OK;
}

size_t call_attributes(const uint8_t *file, size_t n)
{
    size_t count = 0;

    for (size_t bag = 0; bag < table.bag_count; bag++)
        for (size_t i = 0; attribute(file, n, bag, i) == P12_OK; i++)
            count++;
    return count;
}

size_t call_certificates(const uint8_t *file, size_t n)
{
    size_t count = 0;

    for (size_t key = 0; key < table.bag_count; key++)
        if (is_key(&table.bags[key]))
            count += certificate_for(file, n, key) == P12_OK;
    return count;
}
