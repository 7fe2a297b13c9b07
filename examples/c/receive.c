/* Receives an upload from standard input in portions, and gives up at the byte that spoils it.

       receive [PORTION]      at most PORTION bytes at a time, 1,024 without it

   The input is the announced length in four bytes, high first, then the bytes. On a terminal a line on standard error shows
   how far it is. Standard output gets one line, `passed N elements, level L` or `refused N at P after B bytes`.
   Exit status 0 for an upload that passes, 1 for one that is refused, 2 for bad usage or input that can't be read. */
#define _POSIX_C_SOURCE 200809L

#include "p12.h"

#include <stdio.h>
#include <stdlib.h>
#include <unistd.h>

static uint16_t state[P12_UPLOAD_LENGTH];
static uint8_t portion[P12_FILE_BYTES];

static void progress(size_t received, size_t announced)
{
    if (isatty(2))
        fprintf(stderr, "\rreceived %zu of %zu bytes ", received, announced);
}

/* Hands on what arrives, as soon as it does, until the input ends or a fault is certain. 0 where it can't be read. */
static int receive(size_t announced, size_t most)
{
    size_t received = 0;
    ssize_t size = 0;
    unsigned number = p12_upload_begin(announced, state, P12_UPLOAD_LENGTH);

    while (number == P12_OK && (size = read(0, portion, most)) > 0) {
        number = p12_upload_take(state, P12_UPLOAD_LENGTH, portion, (size_t)size);
        received += (size_t)size;
        progress(received, announced);
    }
    if (received > 0 && isatty(2))
        fputc('\n', stderr);
    return size >= 0;
}

/* The announced length; 0 where the input ends before it does. */
static int announcement(size_t *announced)
{
    uint8_t byte;

    *announced = 0;
    for (int i = 0; i < 4; i++) {
        if (read(0, &byte, 1) != 1)
            return 0;
        *announced = *announced << 8 | byte;
    }
    return 1;
}

int main(int argc, char **argv)
{
    size_t most = argc > 1 ? strtoul(argv[1], NULL, 10) : 1024;
    size_t announced, offset, after, elements, level;
    unsigned number;

    if (argc > 2 || most == 0 || most > sizeof portion) {
        fprintf(stderr, "usage: receive [PORTION], 1 to %zu\n", sizeof portion);
        return 2;
    }
    if (!announcement(&announced)) {
        printf("refused %d at 0 after 0 bytes\n", P12_EARLY);
        return 1;
    }
    if (!receive(announced, most)) {
        perror("receive");
        return 2;
    }
    number = p12_upload_end(state, P12_UPLOAD_LENGTH, &offset, &after, &elements, &level);
    if (number == P12_OK)
        printf("passed %zu elements, level %zu\n", elements, level);
    else
        printf("refused %u at %zu after %zu bytes\n", number, offset, after);
    return number == P12_OK ? 0 : 1;
}
