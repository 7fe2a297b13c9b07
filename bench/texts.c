/* Import and export of a file wrapped as text, in one run on the same bytes:
     p12      p12_import, p12_export
     c        plain C (text_walker.c): import judges the whole text, then decodes it, as p12_import does; export is one
              pass
     block    EVP_DecodeBlock, EVP_EncodeBlock of libcrypto: the letters alone, without lines
     pem      PEM_read_bio, PEM_write_bio of libcrypto: the text, of any name and far more loosely

       texts FILE ..    two rows a file; exit status 1 where two of them disagree

   The median counts. Import by p12 and in plain C must also agree on damaged texts: number, offset and bytes. */
#include "common.h"
#include "text_walker.h"
#include "../include/p12.h"

#include <openssl/evp.h>
#include <openssl/pem.h>
#include <stdlib.h>
#include <string.h>

enum { OURS, PLAIN, BLOCK, PEM, WAYS };

enum { LETTERS = (P12_FILE_BYTES + 2) / 3 * 4, DAMAGED = 2000, FIRST = 23, LAST = 21, LINE = 64 };

/* The text of the file, and its letters alone. */
static uint8_t text[P12_TEXT_BYTES], letters[LETTERS];
static size_t text_size, letter_count;

static uint8_t out[P12_TEXT_BYTES + 1]; /* EVP_EncodeBlock writes a final 0 */

/* Import: each returns the number of bytes in `out`, EVP_DecodeBlock with a byte for each padding. */

static size_t import_ours(const uint8_t *file, size_t n)
{
    size_t written, offset;

    (void)file;
    (void)n;
    p12_import(text, text_size, out, P12_FILE_BYTES, &written, &offset);
    return written;
}

static size_t import_plain(const uint8_t *file, size_t n)
{
    size_t written, offset;

    (void)file;
    (void)n;
    walker_import(text, text_size, out, P12_FILE_BYTES, &written, &offset);
    return written;
}

static size_t import_block(const uint8_t *file, size_t n)
{
    int count = EVP_DecodeBlock(out, letters, (int)letter_count);

    (void)file;
    (void)n;
    return count > 0 ? (size_t)count : 0;
}

static size_t import_pem(const uint8_t *file, size_t n)
{
    BIO *in = BIO_new_mem_buf(text, (int)text_size);
    char *name, *header;
    unsigned char *data;
    long count = 0;

    (void)file;
    (void)n;
    if (PEM_read_bio(in, &name, &header, &data, &count)) {
        memcpy(out, data, (size_t)count);
        OPENSSL_free(name);
        OPENSSL_free(header);
        OPENSSL_free(data);
    }
    BIO_free(in);
    return (size_t)count;
}

/* Export: each returns the number of characters in `out`. */

static size_t export_ours(const uint8_t *file, size_t n)
{
    size_t written;

    p12_export(file, n, out, P12_TEXT_BYTES, &written);
    return written;
}

static size_t export_plain(const uint8_t *file, size_t n)
{
    size_t written;

    walker_export(file, n, out, P12_TEXT_BYTES, &written);
    return written;
}

static size_t export_block(const uint8_t *file, size_t n)
{
    return (size_t)EVP_EncodeBlock(out, file, (int)n);
}

static size_t export_pem(const uint8_t *file, size_t n)
{
    BIO *made = BIO_new(BIO_s_mem());
    char *data;
    size_t count = 0;

    if (PEM_write_bio(made, "PKCS12", "", file, (long)n) > 0) {
        count = (size_t)BIO_get_mem_data(made, &data);
        memcpy(out, data, count);
    }
    BIO_free(made);
    return count;
}

static const peer imports[WAYS] = { import_ours, import_plain, import_block, import_pem };
static const peer exports[WAYS] = { export_ours, export_plain, export_block, export_pem };

/* Whether they agree */

/* The text by p12_export, and its letters without the lines' ends. The number. */
static unsigned prepare_text(const uint8_t *file, size_t n)
{
    unsigned number = p12_export(file, n, text, sizeof text, &text_size);

    letter_count = 0;
    for (size_t at = FIRST; at + LAST < text_size; at += LINE + 1)
        for (size_t k = at; k < at + LINE && text[k] != '\n'; k++)
            letters[letter_count++] = text[k];
    return number;
}

static int agree(const uint8_t *file, size_t n)
{
    size_t padding = 2 - (n + 2) % 3;

    for (int k = 0; k < WAYS; k++) {
        const uint8_t *due = k == BLOCK ? letters : text;
        size_t size = k == BLOCK ? letter_count : text_size;

        memset(out, 0, sizeof out);
        if (exports[k](file, n) != size || memcmp(out, due, size) != 0)
            return 0;
        memset(out, 0, sizeof out);
        if (imports[k](file, n) != n + (k == BLOCK ? padding : 0) || memcmp(out, file, n) != 0)
            return 0;
    }
    return 1;
}

/* Texts that are cut, have a byte behind them, or a byte that is another one. */
static int agree_on_damaged(void)
{
    static uint8_t damaged[P12_TEXT_BYTES + 1], ours[P12_FILE_BYTES], plain[P12_FILE_BYTES];

    memcpy(damaged, text, text_size);
    srand(1);
    for (int i = 0; i < DAMAGED; i++) {
        size_t k = i % 4 == 1 ? text_size : (size_t)rand() % text_size;
        size_t size = i % 4 == 0 ? k : i % 4 == 1 ? text_size + 1 : text_size;
        size_t count, other_count, offset, other_offset;
        unsigned number, other;

        damaged[k] = i % 3 ? (uint8_t)rand() : (uint8_t)"A/=\n- "[rand() % 6];
        number = p12_import(damaged, size, ours, sizeof ours, &count, &offset);
        other = walker_import(damaged, size, plain, sizeof plain, &other_count, &other_offset);
        if (number != other || count != other_count || offset != other_offset || memcmp(ours, plain, count) != 0)
            return 0;
        damaged[k] = k < text_size ? text[k] : 0;
    }
    return 1;
}

/* Times */

static void show_row(const char *what, const char *name, const peer *peers, const uint8_t *file, size_t n)
{
    double ns[WAYS];

    median(peers, WAYS, file, n, ns);
    printf("%-6s %-21s %6zu", what, name, n);
    for (int k = 0; k < WAYS; k++)
        show_ns(ns[k], ' ');
    for (int k = PLAIN; k < WAYS; k++)
        show_ratio(ns[OURS], ns[k]);
    puts("");
}

static int time_file(const char *name, const uint8_t *file, size_t n)
{
    unsigned number = prepare_text(file, n);
    size_t count;

    if (number != walker_export(file, n, out, P12_TEXT_BYTES, &count))
        return wrong(name, "p12_export and plain C have other numbers");
    if (number != P12_OK) {
        printf("export %-21s %6zu  refused %u\n", name, n, number);
        return 0;
    }
    if (!agree(file, n))
        return wrong(name, "the texts differ, or what is imported");
    if (!agree_on_damaged())
        return wrong(name, "p12_import and plain C differ on a damaged text");
    show_row("import", name, imports, file, n);
    show_row("export", name, exports, file, n);
    return 0;
}

int main(int argc, char **argv)
{
    return each_file(argc, argv,
        "texts, ns                     bytes        p12          c      block        pem"
        "       by c   by block     by pem", time_file);
}
