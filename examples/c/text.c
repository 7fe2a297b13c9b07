/* Takes a PKCS #12 file out of the text that it is wrapped in, or wraps a file as text.

       text          standard input is a text, standard output the bytes that it wraps
       text -w       standard input is a file, standard output its text

   Where it is refused, standard output gets nothing, and standard error the line `refused N at P`. Exit status 0 where
   it is done, 1 where it is refused, 2 for bad usage, or where reading or writing fails. */
#include "p12.h"

#include <stdio.h>
#include <string.h>

/* One byte more than the longest of each, so that a longer one is refused. */
static uint8_t file[P12_FILE_BYTES + 1];
static uint8_t text[P12_TEXT_BYTES + 1];

static int failed(const char *what)
{
    perror(what);
    return 2;
}

static int refused(unsigned number, size_t offset)
{
    fprintf(stderr, "refused %u at %zu\n", number, offset);
    return 1;
}

static int put(const uint8_t *bytes, size_t size)
{
    if (fwrite(bytes, 1, size, stdout) != size || fflush(stdout) != 0)
        return failed("text: output");
    return 0;
}

static int unwrap(void)
{
    size_t length = fread(text, 1, sizeof text, stdin), written, offset;
    unsigned number;

    if (ferror(stdin))
        return failed("text: input");
    number = p12_import(text, length, file, sizeof file, &written, &offset);
    if (number == P12_NOT_TEXT && offset == sizeof text)
        return refused(P12_TOO_LONG, 0);    /* a text so far, and longer than that of any file */
    return number == P12_OK ? put(file, written) : refused(number, offset);
}

static int wrap(void)
{
    size_t length = fread(file, 1, sizeof file, stdin), written;
    unsigned number;

    if (ferror(stdin))
        return failed("text: input");
    number = p12_export(file, length, text, sizeof text, &written);
    return number == P12_OK ? put(text, written) : refused(number, 0);
}

int main(int argc, char **argv)
{
    if (argc == 1)
        return unwrap();
    if (argc == 2 && strcmp(argv[1], "-w") == 0)
        return wrap();
    fprintf(stderr, "usage: text [-w]\n");
    return 2;
}
