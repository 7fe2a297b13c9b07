/* See common.h. */
#define _GNU_SOURCE
#include "common.h"
#include "../include/p12.h"

#include <pthread.h>
#include <stdlib.h>
#include <string.h>
#include <sys/mman.h>
#include <time.h>

#define REPEATS 15 /* many short ones: what else runs spoils whole repeats */
#define SECONDS 0.3

enum { LOADED_BYTES = P12_FILE_BYTES + 1, STACK_BYTES = 8 << 20, PATTERN = 0xA5, OWN_BYTES = 128 };

static volatile size_t sink;

static void stop(const char *what)
{
    perror(what);
    exit(2);
}

/* The loop over files */

/* The bytes of a file, in memory of exactly that size. */
static uint8_t *load(const char *path, size_t *n)
{
    static uint8_t buffer[LOADED_BYTES];
    FILE *in = fopen(path, "rb");
    uint8_t *file;

    if (!in)
        stop(path);
    *n = fread(buffer, 1, sizeof buffer, in);
    fclose(in);
    file = malloc(*n ? *n : 1);
    if (!file)
        stop(path);
    return memcpy(file, buffer, *n);
}

static const char *base(const char *path)
{
    const char *slash = strrchr(path, '/');

    return slash ? slash + 1 : path;
}

int each_file(int argc, char **argv, const char *heading, row show)
{
    int status = 0;

    if (argc < 2) {
        fprintf(stderr, "usage: %s FILE ..\n", base(argv[0]));
        return 2;
    }
    if (heading)
        puts(heading);
    for (int i = 1; i < argc; i++) {
        size_t n;
        uint8_t *file = load(argv[i], &n);

        status |= show(base(argv[i]), file, n);
        fflush(stdout);
        free(file);
    }
    return status;
}

int wrong(const char *name, const char *what)
{
    fprintf(stderr, "bench: %s: %s\n", name, what);
    return 1;
}

/* Times */

static double seconds(void)
{
    struct timespec now;

    clock_gettime(CLOCK_MONOTONIC, &now);
    return (double)now.tv_sec + 1e-9 * (double)now.tv_nsec;
}

static double run(peer call, const uint8_t *file, size_t n, long rounds)
{
    double from = seconds();

    for (long i = 0; i < rounds; i++)
        sink = call(file, n);
    return seconds() - from;
}

static long rounds_for(peer call, const uint8_t *file, size_t n, double goal)
{
    long rounds = 1;
    double took;

    while ((took = run(call, file, n, rounds)) < goal / 20)
        rounds *= 4;
    rounds = (long)((double)rounds * goal / took);
    return rounds > 0 ? rounds : 1;
}

static int by_size(const void *a, const void *b)
{
    double x = *(const double *)a, y = *(const double *)b;

    return (x > y) - (x < y);
}

/* Of the times of each peer, sorted, the one at `place`. */
static void time_at(int place, const peer *peers, int count, const uint8_t *file, size_t n, double *ns)
{
    double times[PEERS][REPEATS];
    long rounds[PEERS];

    for (int k = 0; k < count; k++)
        rounds[k] = peers[k] ? rounds_for(peers[k], file, n, SECONDS / REPEATS) : 0;
    for (int repeat = 0; repeat < REPEATS; repeat++)
        for (int k = 0; k < count; k++)
            times[k][repeat] = peers[k] ? 1e9 * run(peers[k], file, n, rounds[k]) / (double)rounds[k] : 0;
    for (int k = 0; k < count; k++) {
        qsort(times[k], REPEATS, sizeof times[k][0], by_size);
        ns[k] = times[k][place];
    }
}

void best(const peer *peers, int count, const uint8_t *file, size_t n, double *ns)
{
    time_at(0, peers, count, file, n, ns);
}

void median(const peer *peers, int count, const uint8_t *file, size_t n, double *ns)
{
    time_at(REPEATS / 2, peers, count, file, n, ns);
}

void show_ns(double ns, char mark)
{
    if (ns > 0)
        printf(" %9.0f%c", ns, mark);
    else
        printf(" %9s ", "-");
}

void show_ratio(double above, double below)
{
    if (above > 0 && below > 0)
        printf(" %10.2f", above / below);
    else
        printf(" %10s", "-");
}

/* Stack: a thread runs on memory that is filled with a pattern; the lowest byte that differs afterwards is its mark. Up to
   OWN_BYTES are hidden by the caller's own frame. */

struct visit {
    peer call;
    const uint8_t *file;
    size_t n;
    uint8_t *stack;
    size_t mark; /* bytes from the top of the stack down to the mark */
};

static void *visit(void *argument)
{
    struct visit *v = argument;
    uint8_t *p;

    /* What started the thread may have reached deeper than this: paint over that, but for this function's own frame. */
    for (p = v->stack; p < (uint8_t *)__builtin_frame_address(0) - OWN_BYTES; p++)
        *(volatile uint8_t *)p = PATTERN;
    sink = v->call(v->file, v->n);
    p = v->stack;
    while (*p == PATTERN)
        p++;
    v->mark = (size_t)(v->stack + STACK_BYTES - p);
    return NULL;
}

static size_t mark_of(peer call, const uint8_t *file, size_t n)
{
    struct visit v = { call, file, n, NULL, 0 };
    pthread_attr_t attributes;
    pthread_t thread;

    v.stack = mmap(NULL, STACK_BYTES, PROT_READ | PROT_WRITE, MAP_PRIVATE | MAP_ANONYMOUS, -1, 0);
    if (v.stack == MAP_FAILED)
        stop("mmap");
    if (pthread_attr_init(&attributes) || pthread_attr_setstack(&attributes, v.stack, STACK_BYTES)
        || pthread_create(&thread, &attributes, visit, &v) || pthread_join(thread, NULL)) {
        fprintf(stderr, "bench: no thread\n");
        exit(2);
    }
    pthread_attr_destroy(&attributes);
    munmap(v.stack, STACK_BYTES);
    return v.mark;
}

static size_t do_nothing(const uint8_t *file, size_t n)
{
    __asm__ volatile("" : : "r"(file), "r"(n));
    return 0;
}

size_t stack_of(peer call, const uint8_t *file, size_t n)
{
    /* Once before, so that the dynamic linker's own work isn't measured. */
    sink = call(file, n);
    return mark_of(call, file, n) - mark_of(do_nothing, file, n);
}
