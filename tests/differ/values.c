/* See values.h. */
#include "values.h"
#include "reasons.h"

#include <openssl/err.h>
#include <string.h>

int need(struct comparison *c, int kept, const char *fault)
{
    if (!kept && !c->fault)
        c->fault = fault;
    return kept;
}

void inexpressible(struct comparison *c, const char *call)
{
    if (!c->inexpressible)
        count_reason(call);
    c->inexpressible = 1;
    ERR_clear_error();
}

static int is(const struct comparison *c, struct p12_range range, const void *bytes, size_t length)
{
    return (size_t)(range.end - range.start) == length && (length == 0 || memcmp(c->file + range.start, bytes, length) == 0);
}

void same_object(struct comparison *c, struct p12_range range, const ASN1_OBJECT *object, const char *fault)
{
    need(c, is(c, range, OBJ_get0_data(object), OBJ_length(object)), fault);
}

void same_octets(struct comparison *c, struct p12_range range, const ASN1_STRING *octets, const char *fault)
{
    need(c, octets && is(c, range, ASN1_STRING_get0_data(octets), (size_t)ASN1_STRING_length(octets)), fault);
}

void same_encoding(struct comparison *c, struct p12_range range, const uint8_t *held, long length, const ASN1_ITEM *type, const char *fault)
{
    const unsigned char *at = c->file + range.start;
    unsigned char *anew = NULL;
    ASN1_VALUE *alone;
    int again;

    if (length >= 0 && is(c, range, held, (size_t)length))
        return;
    alone = ASN1_item_d2i(NULL, &at, range.end - range.start, type);
    again = alone ? ASN1_item_i2d(alone, &anew, type) : -1;
    need(c, length > 0 && again == length && at == c->file + range.end && memcmp(held, anew, (size_t)length) == 0, fault);
    inexpressible(c, "a value that it encodes in other bytes");
    ASN1_item_free(alone, type);
    OPENSSL_free(anew);
}

void same_item(struct comparison *c, struct p12_range range, const void *value, const ASN1_ITEM *type, const char *fault)
{
    unsigned char *held = NULL;
    int length = ASN1_item_i2d((const ASN1_VALUE *)value, &held, type);

    same_encoding(c, range, held, length, type, fault);
    OPENSSL_free(held);
}

void same_any(struct comparison *c, struct p12_range range, const ASN1_TYPE *value, const char *fault)
{
    same_item(c, range, value, ASN1_ITEM_rptr(ASN1_ANY), fault);
}

void same_algorithm(struct comparison *c, struct p12_parts parts, const X509_ALGOR *algorithm, const char *fault)
{
    same_object(c, parts.identifier, algorithm->algorithm, fault);
    if (algorithm->parameter)
        same_any(c, parts.parameters, algorithm->parameter, fault);
    else
        need(c, parts.parameters.start == parts.parameters.end, fault);
}
