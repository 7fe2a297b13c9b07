/* Memory of exactly the size that is asked for, so that AddressSanitizer and valgrind see every access past it; painted, so that a byte that was
   written can be told. With GUARDED it ends where a page begins that nobody may touch: then any code that goes past it ends the program, also a
   library that no sanitizer has seen. And the frames that the programs here read: a file's length in four bytes, high first, and its bytes. */
#ifndef EXACT_H
#define EXACT_H

#ifdef GUARDED
#include <sys/mman.h> /* wants _DEFAULT_SOURCE */
#endif

#include <stdint.h>
#include <stdio.h>
#include <stdlib.h>
#include <string.h>

enum { PAINT = 1 << 18 }; /* the most that is painted */

static inline const uint8_t *paint(void)
{
    static uint8_t bytes[PAINT];

    if (bytes[0] == 0)
        for (size_t i = 0; i < PAINT; i++)
            bytes[i] = (uint8_t)(7 * i + 3);
    return bytes;
}

#ifdef GUARDED

enum { PAGE = 4096 };

static inline size_t pages(size_t size)
{
    return (size + PAGE - 1) / PAGE * PAGE;
}

static inline void *memory_of(size_t size)
{
    uint8_t *memory = mmap(NULL, pages(size) + PAGE, PROT_READ | PROT_WRITE, MAP_PRIVATE | MAP_ANONYMOUS, -1, 0);

    if (memory == MAP_FAILED || mprotect(memory + pages(size), PAGE, PROT_NONE))
        return NULL;
    return memory + pages(size) - size;
}

static inline void release(void *memory, size_t size)
{
    munmap((uint8_t *)memory + size - pages(size), pages(size) + PAGE);
}

#else

static inline void *memory_of(size_t size)
{
    return malloc(size);
}

static inline void release(void *memory, size_t size)
{
    (void)size;
    free(memory);
}

#endif

static inline void *exact(size_t size)
{
    void *memory = memory_of(size);

    if (!memory || size > PAINT) {
        fprintf(stderr, "no memory of %zu bytes\n", size);
        exit(2);
    }
    return memory;
}

static inline void *painted(size_t size)
{
    void *memory = exact(size);

    if (size)
        memcpy(memory, paint(), size);
    return memory;
}

static inline void *copied(const void *bytes, size_t size)
{
    void *memory = exact(size);

    if (size)
        memcpy(memory, bytes, size);
    return memory;
}

/* Whether painted memory is as before from an offset up to its end. */
static inline int as_before(const void *memory, size_t from, size_t size)
{
    return from == size || memcmp((const uint8_t *)memory + from, paint() + from, size - from) == 0;
}

/* The next frame's file, in memory of its own, or NULL where the input ends. A frame that is cut, or is over PAINT bytes, ends the program. */
static inline uint8_t *next_frame(size_t *length)
{
    uint8_t head[4], *file;
    size_t got = fread(head, 1, 4, stdin);

    if (got == 0)
        return NULL;
    *length = (size_t)head[0] << 24 | (size_t)head[1] << 16 | (size_t)head[2] << 8 | head[3];
    file = got == 4 ? exact(*length) : NULL;
    if (!file || fread(file, 1, *length, stdin) != *length) {
        fprintf(stderr, "a frame is cut\n");
        exit(2);
    }
    return file;
}

#endif
