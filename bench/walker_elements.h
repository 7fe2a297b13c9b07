/* One element: what walker.c is made of. A header, so that the compiler sees both as one file. */
#ifndef WALKER_ELEMENTS_H
#define WALKER_ELEMENTS_H

#include "walker.h"

#include <string.h>

enum {
    INTEGER = 0x02,
    OCTETS = 0x04,
    IDENTIFIER = 0x06,
    SEQUENCE = 0x30,
    SET = 0x31,
    CIPHERTEXT = 0x80,
    CONTEXT_0 = 0xA0,
    CONSTRUCTED = 0x20
};

#define PKCS "\x2A\x86\x48\x86\xF7\x0D\x01"

struct walker {
    const uint8_t *file;
    struct table *table;
    uint32_t elements;
    struct fault fault;
};

/* What is left of a parent: its bytes from at up to end-1. */
struct cursor {
    uint32_t at, end;
};

struct element {
    uint32_t at;
    uint8_t tag;
    struct cursor body;
};

static int refuse(struct walker *w, uint32_t number, uint32_t offset)
{
    w->fault.number = number;
    w->fault.offset = offset;
    return 0;
}

static struct range range(uint32_t start, uint32_t end)
{
    struct range r = { (uint16_t)start, (uint16_t)end };
    return r;
}

static struct range body_of(const struct element *e)
{
    return range(e->body.at, e->body.end);
}

/* The next element of c, whatever its tag; c moves past it. */
static inline int any_element(struct walker *w, struct cursor *c, struct element *e)
{
    const uint8_t *p = w->file + c->at;
    uint32_t left = c->end - c->at, header = 2, length;

    if (left == 0)
        return refuse(w, P12_MISSING, c->at);
    if (p[0] == 0 || (p[0] & 0x1F) == 0x1F)
        return refuse(w, P12_TAG_FORM, c->at);
    if (left == 1)
        return refuse(w, P12_OVERRUN, c->at);
    length = p[1];
    if (length >= 0x80) {
        if (length == 0x81) {
            if (left < 3)
                return refuse(w, P12_OVERRUN, c->at);
            length = p[2];
            if (length < 0x80)
                return refuse(w, P12_LENGTH_FORM, c->at);
            header = 3;
        } else if (length == 0x82) {
            if (left < 4)
                return refuse(w, P12_OVERRUN, c->at);
            length = (uint32_t)p[2] << 8 | p[3];
            if (length < 0x100)
                return refuse(w, P12_LENGTH_FORM, c->at);
            header = 4;
        } else {
            return refuse(w, P12_LENGTH_FORM, c->at);
        }
    }
    if (length > left - header)
        return refuse(w, P12_OVERRUN, c->at);
    w->elements++;
    e->at = c->at;
    e->tag = p[0];
    e->body.at = c->at + header;
    e->body.end = c->at = e->body.at + length;
    return 1;
}

/* The next element of c, which must have this tag. */
static inline int element(struct walker *w, struct cursor *c, uint8_t tag, struct element *e)
{
    if (!any_element(w, c, e))
        return 0;
    return e->tag == tag ? 1 : refuse(w, P12_OTHER_TAG, e->at);
}

static inline int ended(struct walker *w, const struct cursor *c)
{
    return c->at == c->end ? 1 : refuse(w, P12_LEFT_OVER, c->at);
}

/* What is inside an opaque element, to the bottom. */
static int inside_opaque(struct walker *w, const struct element *top)
{
    uint32_t ends[P12_OPAQUE_LEVELS + 1]; /* of the open bodies, by the level of their element */
    uint32_t level = 1;
    struct cursor c = top->body;
    struct element e;

    if (!(top->tag & CONSTRUCTED))
        return 1;
    ends[1] = c.end;
    for (;;) {
        while (c.at == c.end) {
            if (--level == 0)
                return 1;
            c.end = ends[level];
        }
        if (!any_element(w, &c, &e))
            return 0;
        if (level == P12_OPAQUE_LEVELS)
            return refuse(w, P12_TOO_MANY, e.at);
        if (e.tag & CONSTRUCTED) {
            c = e.body;
            ends[++level] = c.end;
        }
    }
}

static int opaque(struct walker *w, struct cursor *c, struct range *whole)
{
    struct element e;

    if (!any_element(w, c, &e) || !inside_opaque(w, &e))
        return 0;
    *whole = range(e.at, e.body.end);
    return 1;
}

static int opaque_tagged(struct walker *w, struct cursor *c, uint8_t tag, struct range *whole)
{
    struct element e;

    if (!element(w, c, tag, &e) || !inside_opaque(w, &e))
        return 0;
    *whole = range(e.at, e.body.end);
    return 1;
}

static int identifier(struct walker *w, struct cursor *c, struct element *e)
{
    const uint8_t *p, *end;
    uint8_t before = 0;

    if (!element(w, c, IDENTIFIER, e))
        return 0;
    p = w->file + e->body.at;
    end = w->file + e->body.end;
    if (p == end || end[-1] >= 0x80)
        return refuse(w, P12_CONTENT, e->at);
    for (; p < end; p++) {
        if (*p == 0x80 && before < 0x80)
            return refuse(w, P12_CONTENT, e->at);
        before = *p;
    }
    return 1;
}

static int identifier_range(struct walker *w, struct cursor *c, struct range *body)
{
    struct element e;

    if (!identifier(w, c, &e))
        return 0;
    *body = body_of(&e);
    return 1;
}

/* Whether the body of e is these bytes. */
static inline int is(const struct walker *w, const struct element *e, const char *bytes, uint32_t n)
{
    return e->body.end - e->body.at == n && memcmp(w->file + e->body.at, bytes, n) == 0;
}

/* The last byte of a body that is the prefix and one byte below 80; 0 for any other. */
static inline unsigned after(const struct walker *w, const struct element *e, const char *prefix, uint32_t n)
{
    const uint8_t *p = w->file + e->body.at;

    return e->body.end - e->body.at == n + 1 && memcmp(p, prefix, n) == 0 ? p[n] : 0;
}

static int octets(struct walker *w, struct cursor *c, struct range *body)
{
    struct element e;

    if (!element(w, c, OCTETS, &e))
        return 0;
    *body = body_of(&e);
    return 1;
}

static int integer(struct walker *w, struct cursor *c, struct element *e, uint32_t *value)
{
    const uint8_t *p;
    uint32_t size, v = 0;

    if (!element(w, c, INTEGER, e))
        return 0;
    p = w->file + e->body.at;
    size = e->body.end - e->body.at;
    if (size < 1 || size > 4 || p[0] >= 0x80 || (size > 1 && p[0] == 0 && p[1] < 0x80))
        return refuse(w, P12_CONTENT, e->at);
    while (size--)
        v = v << 8 | *p++;
    *value = v;
    return 1;
}

#endif
