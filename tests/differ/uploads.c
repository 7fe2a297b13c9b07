/* Uploads through the calls for C. Standard input has the frames of crates/test_uploads, and a line is written for each, as that
   driver does: the status after the announcement and after each portion, then the answer at the end.

   What no line shows is checked on the way, and a line `fault: ..` says what is wrong: memory behind the cells stays as it was,
   and so does memory that is too short; the number that p12_upload_take returns is that of p12_upload_status; status and end
   change nothing; the cells can be copied. All memory has its exact size, for AddressSanitizer. */
#include "checks.h"
#include "exact.h"

enum { CELL = sizeof(uint16_t), SIZE = P12_UPLOAD_LENGTH * sizeof(uint16_t), MORE = 3 };

static size_t number_at(const uint8_t *p, int bytes)
{
    size_t n = 0;

    while (bytes-- > 0)
        n = n << 8 | *p++;
    return n;
}

static int is_cut(const uint8_t *content, size_t size)
{
    size_t at = 4;

    while (at < size)
        at += size - at < 2 ? 2 : 2 + number_at(content + at, 2);
    return size < 4 || at > size;
}

static unsigned show_status(const uint16_t *state)
{
    size_t offset = 1, after = 1;
    unsigned number = p12_upload_status(state, P12_UPLOAD_LENGTH, &offset, &after);

    if (number == P12_OK)
        printf("none, ");
    else
        printf("refused %u at %zu after %zu, ", number, offset, after);
    check(number != P12_OK || (offset == 0 && after == 0), "no fault: offset or after");
    return number;
}

static void show_end(const uint16_t *state)
{
    size_t offset = 1, after = 1, elements = 1, level = 1;
    unsigned number = p12_upload_end(state, P12_UPLOAD_LENGTH, &offset, &after, &elements, &level);

    if (number == P12_OK)
        printf("end: passed %zu elements, level %zu\n", elements, level);
    else
        printf("end: refused %u at %zu after %zu\n", number, offset, after);
    check(number == P12_OK ? offset == 0 && after == 0 : elements == 0 && level == 0, "end: values that don't apply");
}

/* A portion into a copy of the state with more cells behind it: the same number and the same cells. */
static void take(uint16_t *state, const uint8_t *bytes, size_t size)
{
    uint8_t *portion = copied(bytes, size);
    uint16_t *copy = painted(SIZE + MORE * CELL);
    unsigned number, other;

    memcpy(copy, state, SIZE);
    number = p12_upload_take(state, P12_UPLOAD_LENGTH, portion, size);
    other = p12_upload_take(copy, P12_UPLOAD_LENGTH + MORE, portion, size);
    check(number == other && memcmp(state, copy, SIZE) == 0, "a copy with more cells: another number or other cells");
    check(as_before(copy, SIZE, SIZE + MORE * CELL), "a copy with more cells: those behind changed");
    check(number == show_status(state), "take and status: another number");
    release(copy, SIZE + MORE * CELL);
    release(portion, size);
}

static void run(const uint8_t *content, size_t size)
{
    uint16_t *state = painted(SIZE), before[P12_UPLOAD_LENGTH];
    unsigned number = p12_upload_begin(number_at(content, 4), state, P12_UPLOAD_LENGTH);

    check(number == show_status(state), "begin and status: another number");
    for (size_t at = 4; at < size; at += 2 + number_at(content + at, 2))
        take(state, content + at + 2, number_at(content + at, 2));
    memcpy(before, state, SIZE);
    show_end(state);
    check(memcmp(before, state, SIZE) == 0, "status or end: the cells changed");
    release(state, SIZE);
}

/* Too few cells, cells that hold no upload, and any cells at all. */
static void check_other_cells(void)
{
    uint16_t *fewer = painted(SIZE - CELL), *cells = painted(SIZE);
    const uint8_t *content = paint();
    size_t a = 1, b = 1, c = 1, d = 1;

    check(p12_upload_begin(1, fewer, P12_UPLOAD_LENGTH - 1) == P12_SHORT_BUFFER, "fewer cells: begin");
    check(p12_upload_take(fewer, P12_UPLOAD_LENGTH - 1, content, 1) == P12_NOT_SOUND, "fewer cells: take");
    check(as_before(fewer, 0, SIZE - CELL), "fewer cells: they changed");
    check(p12_upload_status(fewer, P12_UPLOAD_LENGTH - 1, &a, &b) == P12_NOT_SOUND && a == 0 && b == 0, "fewer cells: status");
    a = b = 1;
    check(p12_upload_end(fewer, P12_UPLOAD_LENGTH - 1, &a, &b, &c, &d) == P12_NOT_SOUND && a + b + c + d == 0, "fewer cells: end");
    check(p12_upload_status(NULL, 0, &a, &b) == P12_NOT_SOUND, "no cells: status");
    memset(cells, 0, SIZE);
    check(p12_upload_take(cells, P12_UPLOAD_LENGTH, content, 1) == P12_NOT_SOUND, "zeros: take");
    check(p12_upload_end(cells, P12_UPLOAD_LENGTH, &a, &b, &c, &d) == P12_NOT_SOUND, "zeros: end");
    srand(1);
    for (int k = 0; k < 200000; k++) {
        for (int i = 0; i < P12_UPLOAD_LENGTH; i++)
            cells[i] = (uint16_t)(i == 0 ? k % 10 : rand() % 4 ? rand() % 64 : rand());
        p12_upload_take(cells, P12_UPLOAD_LENGTH, content, (size_t)rand() % 64);
        p12_upload_end(cells, P12_UPLOAD_LENGTH, &a, &b, &c, &d);
    }
    release(fewer, SIZE - CELL);
    release(cells, SIZE);
}

int main(void)
{
    uint8_t *content;
    size_t size;
    int cut = 0;

    check_other_cells();
    while (!cut && (content = next_frame(&size))) {
        cut = is_cut(content, size);
        if (cut)
            puts("cut");
        else
            run(content, size);
        release(content, size);
    }
    return 0;
}
