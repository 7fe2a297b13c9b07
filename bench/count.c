/* One reader, called N times on a file: what bench/instructions counts by callgrind.

       count p12|c N FILE      p12: p12_read; c: the C walker (walker.c). Prints the file's name if it is refused

   The instructions of one call are half of what three calls take more than one call: what comes before and after the
   calls, and what only the first one does, isn't in the difference. */
#include "common.h"
#include "peers.h"
#include "walker.h"

#include <stdlib.h>
#include <string.h>

static peer reader;
static long times;

static size_t read_walker(const uint8_t *file, size_t n)
{
    static struct table walked;
    struct fault fault;

    return (size_t)walk(file, n, &walked, &fault);
}

static int call(const char *name, const uint8_t *file, size_t n)
{
    size_t accepted = 1;

    for (long i = 0; i < times; i++)
        accepted = reader(file, n);
    if (!accepted)
        puts(name);
    return 0;
}

int main(int argc, char **argv)
{
    if (argc != 4 || (strcmp(argv[1], "p12") != 0 && strcmp(argv[1], "c") != 0)) {
        fprintf(stderr, "usage: count p12|c N FILE\n");
        return 2;
    }
    reader = strcmp(argv[1], "p12") == 0 ? call_read : read_walker;
    times = atol(argv[2]);
    return each_file(argc - 2, argv + 2, NULL, call);
}
