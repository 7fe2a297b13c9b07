/* Reading a PKCS #12 file by three peers, in one run on the same files:
     a  p12_read, written in Rattle and proved, into a table in the caller's memory
     b  libcrypto: d2i_PKCS12, the safes unpacked, the bags of each data safe unpacked, everything freed.
        Encrypted safes stay closed: there is no password
     c  a plain C walker that checks the same rules as a, into a table behind a pointer (walker.c)

       bench FILE ..    one row a file; exit status 1 where a and c disagree: on the refusal, or on anything in the table

   A '!' behind a time: the peer refuses the file, and this is the time of the refusal. */
#include "common.h"
#include "peers.h"
#include "walker.h"

#include <openssl/err.h>
#include <openssl/pkcs12.h>
#include <string.h>

/* Whether the bags of a safe could be unpacked. An encrypted one isn't tried. */
static int unpack_bags(PKCS7 *safe)
{
    STACK_OF(PKCS12_SAFEBAG) *bags;
    int kept;

    if (!PKCS7_type_is_data(safe))
        return 1;
    bags = PKCS12_unpack_p7data(safe);
    kept = bags != NULL;
    sk_PKCS12_SAFEBAG_pop_free(bags, PKCS12_SAFEBAG_free);
    return kept;
}

static size_t read_libcrypto(const uint8_t *file, size_t n)
{
    const unsigned char *p = file;
    PKCS12 *p12 = d2i_PKCS12(NULL, &p, (long)n);
    STACK_OF(PKCS7) *safes = p12 && p == file + n ? PKCS12_unpack_authsafes(p12) : NULL;
    int kept = safes != NULL;

    for (int i = 0; kept && i < sk_PKCS7_num(safes); i++)
        kept = unpack_bags(sk_PKCS7_value(safes, i));
    sk_PKCS7_pop_free(safes, PKCS7_free);
    PKCS12_free(p12);
    if (!kept)
        ERR_clear_error();
    return (size_t)kept;
}

static struct table walked;

static size_t read_walker(const uint8_t *file, size_t n)
{
    struct fault fault;

    return walk(file, n, &walked, &fault) ? walked.elements : 0;
}

/* Whether a and c agree */

static struct p12_range same(struct range r)
{
    return (struct p12_range){ r.start, r.end };
}

static struct p12_parts parts(struct range identifier, struct range parameters, struct range value)
{
    return (struct p12_parts){ same(identifier), same(parameters), same(value) };
}

/* The walker's table as the library has it. The rows past the walker's counts are 0. */
static void as_library(const struct table *t, struct p12_table *out)
{
    memset(out, 0, sizeof *out);
    out->elements = (uint16_t)t->elements;
    out->safe_count = t->safe_count;
    out->bag_count = t->bag_count;
    out->attribute_count = t->attribute_count;
    out->mac_input = same(t->mac_input);
    out->mac = parts(t->mac_algorithm, t->mac_parameters, t->mac_digest);
    out->mac_salt = same(t->mac_salt);
    out->mac_iterations_low = (uint16_t)t->mac_iterations;
    out->mac_iterations_high = (uint16_t)(t->mac_iterations >> 16);
    for (int i = 0; i < P12_SAFE_ROWS; i++) {
        const struct safe_row *row = &t->safes[i];

        out->safes[i] = (struct p12_safe){ row->kind, parts(row->algorithm, row->parameters, row->ciphertext) };
    }
    for (int i = 0; i < P12_BAG_ROWS; i++) {
        const struct bag_row *row = &t->bags[i];

        out->bags[i] = (struct p12_bag){ row->kind, row->safe, row->inside, parts(row->type, row->more, row->value), row->has_set };
    }
    for (int i = 0; i < P12_ATTRIBUTE_ROWS; i++) {
        const struct attribute_row *row = &t->attributes[i];

        out->attributes[i] = (struct p12_attribute){ row->bag, same(row->type), same(row->values) };
    }
}

static int agree(const uint8_t *file, size_t n)
{
    static struct p12_table other;
    struct fault fault;
    size_t offset;
    uint8_t number;

    memset(&table, 0xEE, sizeof table); /* p12_read writes every word: 0 for a refused file, as the walker does */
    number = p12_read(file, n, p12_words(&table), P12_TABLE_LENGTH, &offset);
    walk(file, n, &walked, &fault);
    as_library(&walked, &other);
    return number == fault.number && offset == fault.offset && memcmp(&table, &other, sizeof table) == 0;
}

static int time_file(const char *name, const uint8_t *file, size_t n)
{
    static const peer peers[3] = { call_read, read_libcrypto, read_walker };
    size_t answer[3];
    double ns[3];

    if (!agree(file, n))
        return wrong(name, "p12_read and the walker disagree");
    for (int k = 0; k < 3; k++)
        answer[k] = peers[k](file, n);
    best(peers, 3, file, n, ns);
    printf("%-28s %6zu %6zu", name, n, answer[0]);
    for (int k = 0; k < 3; k++)
        show_ns(ns[k], answer[k] ? ' ' : '!');
    /* of a refused file the peers don't do the same work */
    show_ratio(answer[0] ? ns[1] : 0, ns[0]);
    show_ratio(answer[0] ? ns[0] : 0, ns[2]);
    show_ratio(ns[0], (double)answer[0]);
    puts("");
    return 0;
}

int main(int argc, char **argv)
{
    return each_file(argc, argv,
        "reading                       bytes  elems      a ns       b ns       c ns         b/a        a/c  a ns/elem", time_file);
}
