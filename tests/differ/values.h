/* Comparing what p12_read gives with what libcrypto holds, value by value. */
#ifndef VALUES_H
#define VALUES_H

#include "p12.h"

#include <openssl/pkcs12.h>

enum what { KEY = P12_KEY, SHROUDED_KEY, CERTIFICATE, CRL, SECRET, NESTED, PLAIN, ENCRYPTED, ATTRIBUTE, ELEMENT, WHATS };

/* One file while it is compared. */
struct comparison {
    const uint8_t *file;
    size_t length;
    const struct p12_table *table;
    uint32_t bag, attribute; /* the next rows */
    size_t met[WHATS];
    const char *fault;  /* the first difference */
    int inexpressible;  /* whether a reason was counted */
};

/* Keeps the first fault; gives back `kept`. */
int need(struct comparison *c, int kept, const char *fault);

/* Counts why libcrypto doesn't take the file as it stands: the call, and the first error that it left. */
void inexpressible(struct comparison *c, const char *call);

void same_object(struct comparison *c, struct p12_range range, const ASN1_OBJECT *object, const char *fault);
void same_octets(struct comparison *c, struct p12_range range, const ASN1_STRING *octets, const char *fault);
void same_algorithm(struct comparison *c, struct p12_parts parts, const X509_ALGOR *algorithm, const char *fault);

/* An element that libcrypto holds as a value of some type, and the bytes in which it encodes that. If they are others than the file's, then they must
   be what it makes of the element alone; that is counted as inexpressible. */
void same_encoding(struct comparison *c, struct p12_range range, const uint8_t *held, long length, const ASN1_ITEM *type, const char *fault);
void same_item(struct comparison *c, struct p12_range range, const void *value, const ASN1_ITEM *type, const char *fault);
void same_any(struct comparison *c, struct p12_range range, const ASN1_TYPE *value, const char *fault);

#endif
