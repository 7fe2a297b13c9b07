/* Plain import and export of files wrapped as text, in C: the peers that p12_import and p12_export are measured
   against. Each answers as its call does. */
#ifndef TEXT_WALKER_H
#define TEXT_WALKER_H

#include <stddef.h>
#include <stdint.h>

/* Two passes: the whole text is judged, then decoded. */
uint8_t walker_import(const uint8_t *text, size_t length, uint8_t *out, size_t capacity, size_t *written,
    size_t *offset);

/* One pass. */
uint8_t walker_export(const uint8_t *bytes, size_t length, uint8_t *out, size_t capacity, size_t *written);

#endif
