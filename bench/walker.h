/* A plain reader of PKCS #12 files, in C: the peer that the proved reader is measured against.
   It keeps every rule of docs/RULES.md, and the choices of docs/DECISIONS.md where the rules leave one. */
#ifndef WALKER_H
#define WALKER_H

#include "../include/p12.h" /* numbers and sizes, nothing else */

#include <stddef.h>
#include <stdint.h>

/* Bytes start up to end-1 of the file. */
struct range {
    uint16_t start, end;
};

enum safe_kind { SAFE_NONE, SAFE_PLAIN, SAFE_ENCRYPTED };

struct safe_row {
    uint8_t kind;
    struct range algorithm, parameters, ciphertext; /* encrypted safes */
};

/* The numbers are the last bytes of the kinds' identifiers. */
enum bag_kind { BAG_NONE, BAG_KEY, BAG_SHROUDED, BAG_CERTIFICATE, BAG_CRL, BAG_SECRET, BAG_NESTED };

struct bag_row {
    uint8_t kind, has_set;
    uint16_t safe;
    uint16_t inside;    /* 0: in no bag; otherwise 1 more than the enclosing bag's row number */
    struct range type;  /* shrouded key: algorithm; certificate, CRL, secret: type */
    struct range more;  /* shrouded key: parameters */
    struct range value; /* key, certificate, CRL, secret: the element, whole; shrouded key: ciphertext */
};

struct attribute_row {
    uint16_t bag;
    struct range type, values;
};

struct table {
    uint16_t safe_count, bag_count, attribute_count;
    struct range mac_input, mac_algorithm, mac_parameters, mac_digest, mac_salt;
    uint32_t mac_iterations;
    uint32_t elements;
    struct safe_row safes[P12_SAFE_ROWS];
    struct bag_row bags[P12_BAG_ROWS];
    struct attribute_row attributes[P12_ATTRIBUTE_ROWS];
};

/* The number and the offset of the first fault. */
struct fault {
    uint32_t number, offset;
};

/* 1: accepted, t is the reading, f is 0 at 0. 0: refused, t is all zero, f is the fault. */
int walk(const uint8_t *file, size_t n, struct table *t, struct fault *f);

/* The listing of a file (docs/TESTS.md), with a final 0; t is as walk leaves it. The listing's length, also where it doesn't fit. */
size_t walker_list(const uint8_t *file, size_t n, struct table *t, char *out, size_t capacity);

#endif
