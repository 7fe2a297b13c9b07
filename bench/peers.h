/* The calls of the library, each in the form that common.h measures, on one file at a time. */
#ifndef PEERS_H
#define PEERS_H

#include "../include/p12.h"

/* What they read from and write to. */
extern struct p12_table table;
extern uint8_t written[2 * P12_FILE_BYTES];
extern uint8_t listing[P12_LISTING_BYTES];

/* What call_attribute and call_certificate_for ask for: the last attribute of the last bag that has one; the first of the keys. */
extern struct subjects {
    size_t bag, attribute, key, keys;
} subjects;

/* Reads the file and finds the subjects. 0 for a refused file: the table is all 0 then. */
int prepare(const uint8_t *file, size_t n);

size_t call_read(const uint8_t *file, size_t n);            /* the number of elements */
size_t call_write(const uint8_t *file, size_t n);           /* the length of the file */
size_t call_mac_input(const uint8_t *file, size_t n);       /* the length of the input */
size_t call_list(const uint8_t *file, size_t n);            /* the length of the listing */
size_t call_pairs(const uint8_t *file, size_t n);           /* the length of the pairs' text */
size_t call_attribute(const uint8_t *file, size_t n);       /* 1 */
size_t call_certificate_for(const uint8_t *file, size_t n); /* 1 */

/* Every attribute of every bag, each bag up to P12_DONE: how many. Every key: how many have a certificate. */
size_t call_attributes(const uint8_t *file, size_t n);
size_t call_certificates(const uint8_t *file, size_t n);

#endif
