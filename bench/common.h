/* What the programs share: the loop over files, the best and the median of many repeats, the painted stack, the cells
   of a table. */
#ifndef COMMON_H
#define COMMON_H

#include <stddef.h>
#include <stdint.h>
#include <stdio.h>

/* Prints what there is to say of a file. 1 where something is wrong. */
typedef int (*row)(const char *name, const uint8_t *file, size_t n);

/* All of main: a table with this heading, if any, and a row for each FILE. The exit status: 1 where a row is wrong, 2 where a
   file can't be read. A file is loaded up to one byte more than it may have. */
int each_file(int argc, char **argv, const char *heading, row show);

/* Says on standard error what is wrong; 1. */
int wrong(const char *name, const char *what);

/* What is measured. Each gives 0 where it refuses. */
typedef size_t (*peer)(const uint8_t *file, size_t n);

enum { PEERS = 8 };

/* The nanoseconds of one call of each of up to PEERS peers. Each runs REPEATS times, in turns with the others, for about
   SECONDS / REPEATS each time; the best time counts. 0 where the peer is NULL. */
void best(const peer *peers, int count, const uint8_t *file, size_t n, double *ns);

/* The same, with the median of the times in place of the best. */
void median(const peer *peers, int count, const uint8_t *file, size_t n, double *ns);

/* The bytes of stack that one call uses, beside those of a call that does nothing. Painted: stack that the deepest frame
   reserves and never writes isn't seen. */
size_t stack_of(peer call, const uint8_t *file, size_t n);

/* A time and a mark behind it; one number by another. '-' where a number is 0. */
void show_ns(double ns, char mark);
void show_ratio(double above, double below);

#endif
