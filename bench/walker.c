/* See walker.h. A file from outside in; the functions are in the order of document 01. */
#include "walker_elements.h"

/* The last bytes of the content types' identifiers. */
enum { DATA = 1, SIGNED = 2, ENVELOPED = 3, ENCRYPTED = 6 };

/* A contentType and the offset of its tag. */
static int content_type(struct walker *w, struct cursor *c, unsigned *type, uint32_t *at)
{
    struct element e;

    if (!identifier(w, c, &e))
        return 0;
    *type = after(w, &e, PKCS "\x07", 8);
    *at = e.at;
    return 1;
}

static int algorithm(struct walker *w, struct cursor *c, struct range *id, struct range *parameters)
{
    struct element e;

    if (!element(w, c, SEQUENCE, &e) || !identifier_range(w, &e.body, id))
        return 0;
    if (e.body.at == e.body.end) {
        *parameters = range(e.body.end, e.body.end);
        return 1;
    }
    return opaque(w, &e.body, parameters) && ended(w, &e.body);
}

static int attribute_set(struct walker *w, struct cursor *c, uint32_t bag)
{
    struct table *t = w->table;
    struct attribute_row *row;
    struct element set, e, values;
    struct range ignored;

    if (!element(w, c, SET, &set))
        return 0;
    while (set.body.at != set.body.end) {
        if (!element(w, &set.body, SEQUENCE, &e))
            return 0;
        if (t->attribute_count == P12_ATTRIBUTE_ROWS)
            return refuse(w, P12_TOO_MANY, e.at);
        row = &t->attributes[t->attribute_count++];
        row->bag = (uint16_t)bag;
        if (!identifier_range(w, &e.body, &row->type) || !element(w, &e.body, SET, &values))
            return 0;
        row->values = body_of(&values);
        while (values.body.at != values.body.end)
            if (!opaque(w, &values.body, &ignored))
                return 0;
        if (!ended(w, &e.body))
            return 0;
    }
    return 1;
}

static int shrouded_key(struct walker *w, struct cursor *c, struct bag_row *row)
{
    struct element e;

    return element(w, c, SEQUENCE, &e) && algorithm(w, &e.body, &row->type, &row->more)
        && octets(w, &e.body, &row->value) && ended(w, &e.body);
}

static int typed_value(struct walker *w, struct cursor *c, struct bag_row *row)
{
    struct element e, type, inner;

    if (!element(w, c, SEQUENCE, &e) || !identifier(w, &e.body, &type))
        return 0;
    row->type = body_of(&type);
    if (!element(w, &e.body, CONTEXT_0, &inner))
        return 0;
    if (row->kind == BAG_CERTIFICATE && is(w, &type, PKCS "\x09\x16\x01", 10)) {
        if (!opaque_tagged(w, &inner.body, OCTETS, &row->value))
            return 0;
    } else if (!opaque(w, &inner.body, &row->value)) {
        return 0;
    }
    return ended(w, &inner.body) && ended(w, &e.body);
}

static int safe_contents(struct walker *w, struct cursor *c, uint32_t safe, uint32_t inside, uint32_t level);

static int safe_bag(struct walker *w, struct cursor *c, uint32_t safe, uint32_t inside, uint32_t level)
{
    struct table *t = w->table;
    struct bag_row *row;
    struct element e, id, content;
    uint32_t number;
    int kept;

    if (!element(w, c, SEQUENCE, &e))
        return 0;
    if (t->bag_count == P12_BAG_ROWS)
        return refuse(w, P12_TOO_MANY, e.at);
    number = t->bag_count++;
    row = &t->bags[number];
    row->safe = (uint16_t)safe;
    row->inside = (uint16_t)inside;
    if (!identifier(w, &e.body, &id))
        return 0;
    row->kind = (uint8_t)after(w, &id, PKCS "\x0C\x0A\x01", 10);
    if (row->kind < BAG_KEY || row->kind > BAG_NESTED)
        return refuse(w, P12_NOT_SERVED, id.at);
    if (!element(w, &e.body, CONTEXT_0, &content))
        return 0;
    switch (row->kind) {
    case BAG_KEY:
        kept = opaque_tagged(w, &content.body, SEQUENCE, &row->value);
        break;
    case BAG_SHROUDED:
        kept = shrouded_key(w, &content.body, row);
        break;
    case BAG_NESTED:
        kept = safe_contents(w, &content.body, safe, number + 1, level + 1);
        break;
    default:
        kept = typed_value(w, &content.body, row);
        break;
    }
    if (!kept || !ended(w, &content.body))
        return 0;
    if (e.body.at == e.body.end)
        return 1;
    if (w->file[e.body.at] != SET)
        return refuse(w, P12_LEFT_OVER, e.body.at);
    row->has_set = 1;
    return attribute_set(w, &e.body, number) && ended(w, &e.body);
}

static int safe_contents(struct walker *w, struct cursor *c, uint32_t safe, uint32_t inside, uint32_t level)
{
    struct element e;

    if (!element(w, c, SEQUENCE, &e))
        return 0;
    if (level > P12_LEVELS)
        return refuse(w, P12_TOO_MANY, e.at);
    while (e.body.at != e.body.end)
        if (!safe_bag(w, &e.body, safe, inside, level))
            return 0;
    return 1;
}

static int plain_safe(struct walker *w, struct cursor *c, uint32_t number)
{
    struct element e;

    return element(w, c, OCTETS, &e) && safe_contents(w, &e.body, number, 0, 1) && ended(w, &e.body);
}

static int encrypted_safe(struct walker *w, struct cursor *c, struct safe_row *row)
{
    struct element e, version, info, cipher;
    uint32_t value, at;
    unsigned type;

    if (!element(w, c, SEQUENCE, &e) || !integer(w, &e.body, &version, &value))
        return 0;
    if (value != 0)
        return refuse(w, value == 2 ? P12_NOT_SERVED : P12_CONTENT, version.at);
    if (!element(w, &e.body, SEQUENCE, &info) || !content_type(w, &info.body, &type, &at))
        return 0;
    if (type != DATA)
        return refuse(w, P12_CONTENT, at);
    if (!algorithm(w, &info.body, &row->algorithm, &row->parameters))
        return 0;
    if (info.body.at == info.body.end)
        return refuse(w, P12_NOT_SERVED, info.body.end);
    if (!element(w, &info.body, CIPHERTEXT, &cipher))
        return 0;
    row->ciphertext = body_of(&cipher);
    return ended(w, &info.body) && ended(w, &e.body);
}

static int safe(struct walker *w, struct cursor *c)
{
    struct table *t = w->table;
    struct safe_row *row;
    struct element e, content;
    uint32_t number, at;
    unsigned type;

    if (!element(w, c, SEQUENCE, &e))
        return 0;
    if (t->safe_count == P12_SAFE_ROWS)
        return refuse(w, P12_TOO_MANY, e.at);
    number = t->safe_count++;
    row = &t->safes[number];
    if (!content_type(w, &e.body, &type, &at))
        return 0;
    if (type != DATA && type != ENCRYPTED)
        return refuse(w, type == ENVELOPED ? P12_NOT_SERVED : P12_CONTENT, at);
    row->kind = type == DATA ? SAFE_PLAIN : SAFE_ENCRYPTED;
    if (!element(w, &e.body, CONTEXT_0, &content))
        return 0;
    if (!(type == DATA ? plain_safe(w, &content.body, number) : encrypted_safe(w, &content.body, row)))
        return 0;
    return ended(w, &content.body) && ended(w, &e.body);
}

static int outer(struct walker *w, struct cursor *c)
{
    struct element e, content, string, safes;
    uint32_t at;
    unsigned type;

    if (!element(w, c, SEQUENCE, &e) || !content_type(w, &e.body, &type, &at))
        return 0;
    if (type != DATA)
        return refuse(w, type == SIGNED ? P12_NOT_SERVED : P12_CONTENT, at);
    if (!element(w, &e.body, CONTEXT_0, &content) || !element(w, &content.body, OCTETS, &string))
        return 0;
    w->table->mac_input = body_of(&string);
    if (!element(w, &string.body, SEQUENCE, &safes))
        return 0;
    while (safes.body.at != safes.body.end)
        if (!safe(w, &safes.body))
            return 0;
    return ended(w, &string.body) && ended(w, &content.body) && ended(w, &e.body);
}

static int mac_data(struct walker *w, struct cursor *c)
{
    struct table *t = w->table;
    struct element e, info, number;

    if (c->at == c->end)
        return refuse(w, P12_NOT_SERVED, c->end);
    if (!element(w, c, SEQUENCE, &e) || !element(w, &e.body, SEQUENCE, &info)
        || !algorithm(w, &info.body, &t->mac_algorithm, &t->mac_parameters)
        || !octets(w, &info.body, &t->mac_digest) || !ended(w, &info.body)
        || !octets(w, &e.body, &t->mac_salt))
        return 0;
    t->mac_iterations = 1;
    if (e.body.at == e.body.end)
        return 1;
    if (w->file[e.body.at] != INTEGER)
        return refuse(w, P12_LEFT_OVER, e.body.at);
    if (!integer(w, &e.body, &number, &t->mac_iterations))
        return 0;
    if (t->mac_iterations < 2)
        return refuse(w, P12_CONTENT, number.at);
    return ended(w, &e.body);
}

static int pfx(struct walker *w, struct cursor *c)
{
    struct element e, version;
    uint32_t value;

    if (!element(w, c, SEQUENCE, &e) || !integer(w, &e.body, &version, &value))
        return 0;
    if (value != 3)
        return refuse(w, P12_CONTENT, version.at);
    return outer(w, &e.body) && mac_data(w, &e.body) && ended(w, &e.body) && ended(w, c);
}

int walk(const uint8_t *file, size_t n, struct table *t, struct fault *f)
{
    struct walker w = { file, t, 0, { 0, 0 } };
    struct cursor c = { 0, (uint32_t)n };
    int kept;

    memset(t, 0, sizeof *t);
    kept = n > P12_FILE_BYTES ? refuse(&w, P12_TOO_LONG, 0) : pfx(&w, &c);
    if (kept)
        t->elements = w.elements;
    else
        memset(t, 0, sizeof *t);
    *f = w.fault;
    return kept;
}
