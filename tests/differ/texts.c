/* Texts through the calls for C: import and export. Standard input has the frames of crates/test_texts, or those of
   tests/text_vectors.py --long, and a line is written for each, as that driver does: what is given, or the refusal,
   and whether the rest of the buffer is as before.

   What no line shows is checked on the way, and a line `fault: ..` says what is wrong: *written and *offset are 0
   where they should be; what was imported is exported as the same text, and the other way round, also into a buffer
   that is a byte short; and libcrypto makes the same text of the bytes, and reads and decodes it to them. All memory
   has its exact size, for AddressSanitizer and for guard pages (exact.h). At the end standard error says how many
   there were. */
#include "checks.h"
#include "exact.h"

#include <openssl/evp.h>
#include <openssl/pem.h>

enum { IMPORT, EXPORT };

enum { HEAD = 5 }; /* of a frame: the call, and the length of the buffer */

static const char name[] = "PKCS12", first[] = "-----BEGIN PKCS12-----\n", last[] = "-----END PKCS12-----\n";

struct answer {
    unsigned number;
    size_t written, offset; /* 0 of export, which has none */
};

static struct answer call(int kind, const uint8_t *given, size_t length, uint8_t *out, size_t room)
{
    struct answer a = { P12_OK, SIZE_MAX, kind == IMPORT ? SIZE_MAX : 0 };

    if (kind == IMPORT)
        a.number = p12_import(given, length, out, room, &a.written, &a.offset);
    else
        a.number = p12_export(given, length, out, room, &a.written);
    if (a.number == P12_OK ? a.written > room : a.written != 0) {
        check(0, "the length written");
        a.written = 0;
    }
    check(a.number == P12_NOT_TEXT ? a.offset <= length : a.offset == 0, "the offset");
    return a;
}

/* By the other call: what was given, into memory of its size; 10 for a byte less. */
static void check_back(int kind, const uint8_t *given, size_t length, const uint8_t *result, size_t size)
{
    uint8_t *same = copied(result, size), *out = painted(length), *fewer = painted(length - 1);
    struct answer a = call(!kind, same, size, out, length);

    check(a.number == P12_OK && a.written == length && memcmp(out, given, length) == 0, "back: not what was given");
    a = call(!kind, same, size, fewer, length - 1);
    check(a.number == P12_SHORT_BUFFER && as_before(fewer, 0, length - 1), "back, a byte short: number or buffer");
    release(same, size);
    release(out, length);
    release(fewer, length - 1);
}

/* The text and its bytes, held against libcrypto. */

static void check_written(const uint8_t *bytes, size_t length, const uint8_t *text, size_t size)
{
    BIO *out = BIO_new(BIO_s_mem());
    char *made = NULL;
    size_t count;

    check(PEM_write_bio(out, name, "", bytes, (long)length) > 0, "libcrypto makes no text");
    count = (size_t)BIO_get_mem_data(out, &made);
    check(count == size && memcmp(made, text, size) == 0, "libcrypto makes another text");
    BIO_free(out);
}

static void check_read(const uint8_t *bytes, size_t length, const uint8_t *text, size_t size)
{
    BIO *in = BIO_new_mem_buf(text, (int)size);
    char *label, *header;
    unsigned char *data;
    long count;

    if (PEM_read_bio(in, &label, &header, &data, &count)) {
        check(strcmp(label, name) == 0 && header[0] == 0, "libcrypto reads another name, or a header");
        check((size_t)count == length && memcmp(data, bytes, length) == 0, "libcrypto reads other bytes");
        OPENSSL_free(label);
        OPENSSL_free(header);
        OPENSSL_free(data);
    } else {
        check(0, "libcrypto doesn't read the text");
    }
    BIO_free(in);
}

/* Line by line; padding counts as no byte. */
static void check_decoded(const uint8_t *bytes, size_t length, const uint8_t *text, size_t size)
{
    const uint8_t *line = text + strlen(first), *end = text + size - strlen(last), *stop;
    uint8_t decoded[48];
    size_t got = 0;

    for (; line < end && (stop = memchr(line, '\n', (size_t)(end - line))) && stop - line <= 64; line = stop + 1) {
        int count = EVP_DecodeBlock(decoded, line, (int)(stop - line));

        for (const uint8_t *p = stop; p > line && p[-1] == '='; p--)
            count--;
        if (count <= 0 || (size_t)count > length - got || memcmp(decoded, bytes + got, (size_t)count) != 0)
            break;
        got += (size_t)count;
    }
    check(line == end && got == length, "libcrypto decodes the lines to other bytes");
}

/* Frames. */

static void show(const struct answer *a, const uint8_t *out, size_t room)
{
    const char *rest = as_before(out, a->written, room) ? "kept" : "changed";

    if (a->number != P12_OK) {
        printf("refused %u at %zu, %s\n", a->number, a->offset, rest);
        return;
    }
    printf("%zu: ", a->written);
    for (size_t i = 0; i < a->written; i++)
        printf("%02x", out[i]);
    printf(", rest %s\n", rest);
}

/* The frame's call, and whether it was done. */
static int run(const uint8_t *frame, size_t frame_size)
{
    int kind = frame[0] == EXPORT ? EXPORT : IMPORT;
    size_t room = (size_t)frame[1] << 24 | (size_t)frame[2] << 16 | (size_t)frame[3] << 8 | frame[4];
    const uint8_t *content = frame + HEAD;
    size_t length = frame_size - HEAD;
    uint8_t *given = copied(content, length), *out = painted(room);
    struct answer a = call(kind, given, length, out, room);
    const uint8_t *bytes = kind == EXPORT ? given : out, *text = kind == EXPORT ? out : given;
    size_t count = kind == EXPORT ? length : a.written, size = kind == EXPORT ? a.written : length;

    show(&a, out, room);
    check(length == 0 || memcmp(given, content, length) == 0, "what was given changed");
    if (a.number == P12_OK) {
        check_back(kind, given, length, out, a.written);
        check_written(bytes, count, text, size);
        check_read(bytes, count, text, size);
        check_decoded(bytes, count, text, size);
    }
    release(given, length);
    release(out, room);
    return a.number == P12_OK;
}

/* Calls with no byte, by NULL pointers. */
static void check_no_bytes(void)
{
    static const char text[] = "-----BEGIN PKCS12-----\nAA==\n-----END PKCS12-----\n";
    uint8_t *given = copied(text, strlen(text));

    check(call(IMPORT, NULL, 0, NULL, 0).number == P12_NOT_TEXT, "no text: import");
    check(call(EXPORT, NULL, 0, NULL, 0).number == P12_NOT_TEXT, "no bytes: export");
    check(call(IMPORT, given, strlen(text), NULL, 0).number == P12_SHORT_BUFFER, "no buffer: import");
    check(call(EXPORT, given, strlen(text), NULL, 0).number == P12_SHORT_BUFFER, "no buffer: export");
    release(given, strlen(text));
}

int main(void)
{
    uint8_t *frame;
    size_t size, calls = 0, done = 0;
    int cut = 0;

    check_no_bytes();
    while (!cut && (frame = next_frame(&size))) {
        cut = size < HEAD;
        calls += !cut;
        if (cut)
            puts("cut");
        else
            done += (size_t)run(frame, size);
        release(frame, size);
    }
    fprintf(stderr, "texts: %zu calls, %zu done; libcrypto was asked about these\n", calls, done);
    return 0;
}
