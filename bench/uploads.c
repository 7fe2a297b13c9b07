/* The check of an upload while it arrives, in one run on the same files:
     whole    a plain check of the whole in C (below), over the same rules
     one      begin, one portion with all bytes, end
     4096 ..  begin, portions of so many bytes, end

       uploads FILE ..    one row a file; exit status 1 where one of them has another answer than the whole check

   Elements are those that the check examines: the bodies of OCTET STRINGs aren't. Behind the times, by the whole check. */
#include "common.h"
#include "../include/p12.h"

enum { WHOLE, ONE, BY_4096, BY_256, BY_16, BY_1, WAYS };

struct answer {
    unsigned number;
    size_t offset, elements, level;
};

/* The check of the whole */

struct walk {
    const uint8_t *bytes;
    struct answer answer;
};

static int refuse(struct walk *w, unsigned number, size_t offset)
{
    w->answer.number = number;
    w->answer.offset = offset;
    return 0;
}

/* The body of the element at `at` in a parent that ends at `end`: its start, and its end as the result; 0 where it is refused. */
static inline size_t header(struct walk *w, size_t at, size_t end, size_t *start)
{
    const uint8_t *p = w->bytes + at;
    size_t left = end - at, length, size = 2;

    if (p[0] == 0 || (p[0] & 0x1F) == 0x1F)
        return refuse(w, P12_TAG_FORM, at);
    if (left == 1)
        return refuse(w, P12_OVERRUN, at);
    length = p[1];
    if (length == 0x81 || length == 0x82) {
        size = length - 0x80 + 2;
        if (left < size)
            return refuse(w, P12_OVERRUN, at);
        length = size == 3 ? p[2] : (size_t)p[2] << 8 | p[3];
        if (length < (size == 3 ? 0x80u : 0x100u))
            return refuse(w, P12_LENGTH_FORM, at);
    } else if (length >= 0x80) {
        return refuse(w, P12_LENGTH_FORM, at);
    }
    if (length > left - size)
        return refuse(w, P12_OVERRUN, at);
    *start = at + size;
    return at + size + length;
}

/* The element at `at`, to the bottom; its end, 0 where it is refused. */
static size_t element(struct walk *w, size_t at, size_t end, size_t level)
{
    size_t start, stop = header(w, at, end, &start);

    if (stop == 0)
        return 0;
    if (level > P12_UPLOAD_LEVELS)
        return refuse(w, P12_TOO_MANY, at);
    w->answer.elements++;
    if (level > w->answer.level)
        w->answer.level = level;
    if (w->bytes[at] & 0x20)
        while (start < stop)
            if ((start = element(w, start, stop, level + 1)) == 0)
                return 0;
    return stop;
}

static struct answer whole(const uint8_t *file, size_t n)
{
    struct walk w = { file, { P12_OK, 0, 0, 0 } };
    size_t end;

    if (n > P12_FILE_BYTES)
        refuse(&w, P12_TOO_LONG, 0);
    else if (n == 0)
        refuse(&w, P12_MISSING, 0);
    else if ((end = element(&w, 0, n, 1)) != 0 && end < n)
        refuse(&w, P12_LEFT_OVER, end);
    return w.answer;
}

/* The upload */

static struct answer upload(const uint8_t *file, size_t n, size_t most)
{
    uint16_t state[P12_UPLOAD_LENGTH];
    struct answer a;
    size_t after;

    p12_upload_begin(n, state, P12_UPLOAD_LENGTH);
    for (size_t at = 0; at < n; at += most)
        p12_upload_take(state, P12_UPLOAD_LENGTH, file + at, n - at < most ? n - at : most);
    a.number = p12_upload_end(state, P12_UPLOAD_LENGTH, &a.offset, &after, &a.elements, &a.level);
    return a;
}

static size_t by_whole(const uint8_t *file, size_t n) { return whole(file, n).elements; }
static size_t by_one(const uint8_t *file, size_t n) { return upload(file, n, n ? n : 1).elements; }
static size_t by_4096(const uint8_t *file, size_t n) { return upload(file, n, 4096).elements; }
static size_t by_256(const uint8_t *file, size_t n) { return upload(file, n, 256).elements; }
static size_t by_16(const uint8_t *file, size_t n) { return upload(file, n, 16).elements; }
static size_t by_1(const uint8_t *file, size_t n) { return upload(file, n, 1).elements; }

static const size_t portions[WAYS] = { [ONE] = P12_FILE_BYTES + 1, [BY_4096] = 4096, [BY_256] = 256, [BY_16] = 16, [BY_1] = 1 };

static int agrees(const uint8_t *file, size_t n, size_t most)
{
    struct answer due = whole(file, n), a = upload(file, n, most);

    if (due.number != P12_OK)
        return a.number == due.number && a.offset == due.offset;
    return a.number == P12_OK && a.elements == due.elements && a.level == due.level;
}

static int time_file(const char *name, const uint8_t *file, size_t n)
{
    static const peer peers[WAYS] = { by_whole, by_one, by_4096, by_256, by_16, by_1 };
    struct answer due = whole(file, n);
    double ns[WAYS];

    for (int k = ONE; k < WAYS; k++)
        if (!agrees(file, n, portions[k]))
            return wrong(name, "the upload and the check of the whole differ");
    best(peers, WAYS, file, n, ns);
    printf("%-28s %6zu %8zu", name, n, due.elements);
    for (int k = 0; k < WAYS; k++)
        show_ns(ns[k], due.number == P12_OK ? ' ' : '!');
    for (int k = ONE; k < WAYS; k++)
        show_ratio(ns[k], ns[WHOLE]);
    puts("");
    return 0;
}

int main(int argc, char **argv)
{
    return each_file(argc, argv,
        "uploads, ns                   bytes elements      whole        one       4096        256         16          1"
        "    one  4096   256    16     1", time_file);
}
