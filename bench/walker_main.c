/* The listing of each FILE by the C walker: what bench/check compares with tests/models/reader.py.

       walker_main FILE ..

   A line for the MAC's algorithm and parameters follows an accepted file's listing, which doesn't have them. Exit status 1
   where a refused table is not all zero, or rows past the counts are not. */
#include "common.h"
#include "walker.h"

#include <string.h>

static int zero(const void *from, const void *to)
{
    for (const char *p = from; p < (const char *)to; p++)
        if (*p)
            return 0;
    return 1;
}

/* An accepted file has elements. */
static int zero_where_due(const struct table *t)
{
    if (!t->elements)
        return zero(t, t + 1);
    return zero(&t->safes[t->safe_count], &t->safes[P12_SAFE_ROWS]) && zero(&t->bags[t->bag_count], &t->bags[P12_BAG_ROWS])
        && zero(&t->attributes[t->attribute_count], &t->attributes[P12_ATTRIBUTE_ROWS]);
}

static int show(const char *name, const uint8_t *file, size_t n)
{
    static struct table t;
    static char text[1 << 16];

    memset(&t, 0xEE, sizeof t);
    if (walker_list(file, n, &t, text, sizeof text) >= sizeof text)
        return wrong(name, "the buffer is too short for the listing");
    fputs(text, stdout);
    if (t.elements)
        printf("mac algorithm %d..%d, parameters %d..%d\n", t.mac_algorithm.start, t.mac_algorithm.end, t.mac_parameters.start,
            t.mac_parameters.end);
    return zero_where_due(&t) ? 0 : wrong(name, "the table has something where nothing should be");
}

int main(int argc, char **argv)
{
    return each_file(argc, argv, NULL, show);
}
