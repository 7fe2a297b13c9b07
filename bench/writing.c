/* Writing a PKCS #12 file, in one run on the same files:
     write  p12_write, written in Rattle and proved, from a table that p12_read made before the clock, into a lent buffer
     kept   libcrypto: i2d_PKCS12 into a lent buffer. Encoded anew: the PFX, its version, the outer ContentInfo and MacData.
            The AuthenticatedSafe, with all safes and bags in it, is one string that libcrypto keeps encoded; it is copied
     anew   libcrypto: the bags of each data safe packed into the safe's string, the safes packed into the AuthenticatedSafe's,
            then i2d_PKCS12. Encoded anew: also every ContentInfo and EncryptedData, every bag, nested ones too, every algorithm,
            every attribute. Kept and copied: parameters, ciphertexts, the OCTET STRINGs of keys, certificates and CRLs, what
            libcrypto holds as ANY (attribute values, secrets)
   libcrypto has parsed and unpacked the file before the clock too; encrypted safes stay closed.

       writing FILE ..    one row a file; exit status 1 where p12_write doesn't give back the file's bytes

   A file that p12_read refuses is skipped. A '*' behind a time: what libcrypto wrote isn't the file; a '-': libcrypto refuses the
   file or a part of it, so has nothing to write. */
#include "common.h"
#include "peers.h"

#include <openssl/err.h>
#include <openssl/pkcs12.h>
#include <string.h>

/* What libcrypto has of a file before the clock starts. Two parsed files, since packing changes one. */
static PKCS12 *kept, *anew;
static STACK_OF(PKCS7) *safes;
static STACK_OF(PKCS12_SAFEBAG) *bags[P12_SAFE_ROWS]; /* of data safes */

static size_t encode(PKCS12 *p12)
{
    unsigned char *p = written;
    int length = i2d_PKCS12(p12, &p);

    return length > 0 ? (size_t)length : 0;
}

static size_t write_kept(const uint8_t *file, size_t n)
{
    (void)file, (void)n;
    return encode(kept);
}

/* ASN1_item_pack is the call inside PKCS12_pack_p7data, which makes a new PKCS7 each time; here the one that is there is packed
   into, which costs libcrypto less. */
static size_t write_anew(const uint8_t *file, size_t n)
{
    (void)file, (void)n;
    for (int i = 0; i < sk_PKCS7_num(safes); i++)
        if (bags[i] && !ASN1_item_pack(bags[i], ASN1_ITEM_rptr(PKCS12_SAFEBAGS), &sk_PKCS7_value(safes, i)->d.data))
            return 0;
    return PKCS12_pack_authsafes(anew, safes) ? encode(anew) : 0;
}

static PKCS12 *parse(const uint8_t *file, size_t n)
{
    const unsigned char *p = file;
    PKCS12 *p12 = d2i_PKCS12(NULL, &p, (long)n);

    if (p12 && (p != file + n || i2d_PKCS12(p12, NULL) > (int)sizeof written)) {
        PKCS12_free(p12);
        p12 = NULL;
    }
    return p12;
}

/* Whether libcrypto could unpack the safes and the bags of each data safe. */
static int unpack(void)
{
    if (!anew || !(safes = PKCS12_unpack_authsafes(anew)) || sk_PKCS7_num(safes) > P12_SAFE_ROWS)
        return 0;
    for (int i = 0; i < sk_PKCS7_num(safes); i++)
        if (PKCS7_type_is_data(sk_PKCS7_value(safes, i)) && !(bags[i] = PKCS12_unpack_p7data(sk_PKCS7_value(safes, i))))
            return 0;
    return 1;
}

static void forget(void)
{
    for (int i = 0; i < P12_SAFE_ROWS; i++) {
        sk_PKCS12_SAFEBAG_pop_free(bags[i], PKCS12_SAFEBAG_free);
        bags[i] = NULL;
    }
    sk_PKCS7_pop_free(safes, PKCS7_free);
    PKCS12_free(kept);
    PKCS12_free(anew);
    safes = NULL;
    kept = anew = NULL;
    ERR_clear_error();
}

/* Whether the call writes the file's own bytes, and none behind them. */
static int same(peer call, const uint8_t *file, size_t n)
{
    enum { FILL = 0xA5 };

    memset(written, FILL, sizeof written);
    return call(file, n) == n && memcmp(written, file, n) == 0 && written[n] == FILL;
}

static int time_file(const char *name, const uint8_t *file, size_t n)
{
    peer peers[3] = { call_write };
    char mark[3];
    double ns[3];

    if (!prepare(file, n)) {
        printf("%-28s %6zu   refused by p12_read: skipped\n", name, n);
        return 0;
    }
    if (!same(call_write, file, n))
        return wrong(name, "p12_write doesn't give back the file");
    kept = parse(file, n);
    anew = parse(file, n);
    peers[1] = kept ? write_kept : NULL;
    peers[2] = unpack() ? write_anew : NULL;
    for (int k = 0; k < 3; k++)
        mark[k] = !peers[k] || same(peers[k], file, n) ? ' ' : '*';
    best(peers, 3, file, n, ns);
    forget();
    printf("%-28s %6zu", name, n);
    for (int k = 0; k < 3; k++)
        show_ns(ns[k], mark[k]);
    show_ratio(ns[1], ns[0]);
    show_ratio(ns[2], ns[0]);
    puts("");
    return 0;
}

int main(int argc, char **argv)
{
    return each_file(argc, argv,
        "writing                       bytes  write ns    kept ns    anew ns  kept/write anew/write", time_file);
}
