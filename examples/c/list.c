/* Lists a PKCS #12 file, and says which certificate bag belongs to each of its key bags.

       list [FILE]      standard input without FILE

   Exit status 0 for a file that is accepted, 1 for one that is refused, 2 where it can't be read
   or the library isn't that of the header. */
#include "p12.h"

#include <stdio.h>

static uint8_t file[P12_FILE_BYTES + 1];    /* one byte more than the longest file, so that a longer one is refused */
static uint8_t text[P12_LISTING_BYTES];     /* the longer of the two texts */
static struct p12_table table;

/* A call that writes a text of the file: p12_list, p12_pairs. */
typedef uint8_t text_call(const uint8_t *file, size_t length, uint8_t *out, size_t capacity, size_t *written);

static int show(text_call *call, size_t length)
{
    size_t written;

    if (call(file, length, text, sizeof text, &written) != P12_OK)
        return 0;
    return fwrite(text, 1, written, stdout) == written;
}

int main(int argc, char **argv)
{
    FILE *in = argc > 1 ? fopen(argv[1], "rb") : stdin;
    size_t length, offset;
    unsigned number;

    if (argc > 2 || !in) {
        fprintf(stderr, "usage: list [FILE], a file that can be read\n");
        return 2;
    }
    if (p12_table_length() != P12_TABLE_LENGTH) {
        fprintf(stderr, "list: built with the header of another version\n");
        return 2;
    }
    length = fread(file, 1, sizeof file, in);
    if (ferror(in) || !show(p12_list, length))
        return 2;
    number = p12_read(file, length, p12_words(&table), P12_TABLE_LENGTH, &offset);
    if (number != P12_OK)
        return 1;
    return show(p12_pairs, length) ? 0 : 2;
}
