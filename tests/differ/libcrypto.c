/* Holds the table that p12_read gives against what libcrypto makes of the same file.

       libcrypto < FRAMES      frames as in exact.h

   Of each accepted file: d2i_PKCS12, PKCS12_unpack_authsafes, and PKCS12_unpack_p7data of each plain safe. Compared by value and in order: the MAC's
   algorithm, digest, salt and iterations; safes; of encrypted ones algorithm and ciphertext; bags and nested bags with all they hold; attributes and
   their elements. A file that libcrypto doesn't take whole, or holds in other bytes than the file's, is counted by the reason; what it takes of it is
   still compared. Prints the counts. Exit status 1 where something differs, or where a kind of safe or bag never occurred in an agreement. */
#include "exact.h"
#include "reasons.h"
#include "values.h"

enum { SHOWN = 3 }; /* files that differ */

static const char *const names[WHATS]
    = { "", "key bags", "shrouded key bags", "certificate bags", "crl bags", "secret bags", "nested bags", "plain safes", "encrypted safes",
          "attributes", "elements" };

/* Attributes. */

static void compare_attribute(struct comparison *c, uint32_t bag, X509_ATTRIBUTE *attribute)
{
    const struct p12_attribute *row = &c->table->attributes[c->attribute];
    size_t start, end, count;

    if (!need(c, c->attribute < c->table->attribute_count, "fewer attributes") || !need(c, row->bag == bag, "an attribute's bag"))
        return;
    c->attribute++;
    c->met[ATTRIBUTE]++;
    same_object(c, row->identifier, X509_ATTRIBUTE_get0_object(attribute), "an attribute's type");
    count = p12_element(c->file, c->length, row->values.start, row->values.end, 0, &start, &end);
    if (!need(c, count == (size_t)X509_ATTRIBUTE_count(attribute), "the number of elements"))
        return;
    c->met[ELEMENT] += count;
    for (size_t i = 0; i < count; i++) {
        struct p12_range range;

        p12_element(c->file, c->length, row->values.start, row->values.end, i, &start, &end);
        range.start = (uint16_t)start;
        range.end = (uint16_t)end;
        same_any(c, range, X509_ATTRIBUTE_get0_type(attribute, (int)i), "an element");
    }
}

static void compare_attributes(struct comparison *c, uint32_t bag, const STACK_OF(X509_ATTRIBUTE) *attributes)
{
    need(c, c->table->bags[bag].has_set == (attributes != NULL), "whether a set stands there");
    for (int i = 0; attributes && !c->fault && i < sk_X509_ATTRIBUTE_num(attributes); i++)
        compare_attribute(c, bag, sk_X509_ATTRIBUTE_value(attributes, i));
    need(c, c->attribute == c->table->attribute_count || c->table->attributes[c->attribute].bag != bag, "more attributes");
}

/* Bags. */

static uint32_t kind_of(const PKCS12_SAFEBAG *bag)
{
    switch (PKCS12_SAFEBAG_get_nid(bag)) {
    case NID_keyBag:
        return P12_KEY;
    case NID_pkcs8ShroudedKeyBag:
        return P12_SHROUDED_KEY;
    case NID_certBag:
        return P12_CERTIFICATE;
    case NID_crlBag:
        return P12_CRL;
    case NID_secretBag:
        return P12_SECRET;
    case NID_safeContentsBag:
        return P12_NESTED;
    default:
        return 0;
    }
}

static void compare_shrouded(struct comparison *c, struct p12_parts parts, const X509_SIG *key)
{
    const X509_ALGOR *algorithm;
    const ASN1_OCTET_STRING *octets;

    X509_SIG_get0(key, &algorithm, &octets);
    same_algorithm(c, parts, algorithm, "a shrouded key's algorithm");
    same_octets(c, parts.value, octets, "a shrouded key's ciphertext");
}

/* Moves past a header, and for an identifier past its body. What is left then ends where the parent does, or the element. */
static const unsigned char *step(const unsigned char *at, long *left)
{
    const unsigned char *body = at;
    long length = 0;
    int tag, group;

    if (ASN1_get_object(&body, &length, &tag, &group, *left) & 0x80)
        return at;
    *left = tag == V_ASN1_OBJECT ? *left - (body - at) - length : length;
    return tag == V_ASN1_OBJECT ? body + length : body;
}

/* What type libcrypto holds a value as, by the identifier in front of it. */
static const ASN1_ITEM *item_of(const ASN1_OBJECT *type)
{
    switch (OBJ_obj2nid(type)) {
    case NID_x509Certificate:
    case NID_x509Crl:
        return ASN1_ITEM_rptr(ASN1_OCTET_STRING);
    case NID_sdsiCertificate:
        return ASN1_ITEM_rptr(ASN1_IA5STRING);
    default:
        return ASN1_ITEM_rptr(ASN1_ANY);
    }
}

/* No call gives the value whatever its type. So the bag is encoded, and entered: the bag, [0], SEQUENCE and [0], past an identifier each time. */
static void compare_typed(struct comparison *c, struct p12_parts parts, const PKCS12_SAFEBAG *bag)
{
    const ASN1_OBJECT *type = PKCS12_SAFEBAG_get0_bag_type(bag);
    unsigned char *held = NULL;
    long left = ASN1_item_i2d((const ASN1_VALUE *)bag, &held, ASN1_ITEM_rptr(PKCS12_SAFEBAG));
    const unsigned char *at = held;

    same_object(c, parts.identifier, type, "the type of a value");
    for (int i = 0; i < 6; i++)
        at = step(at, &left);
    same_encoding(c, parts.value, at, left, item_of(type), "a value");
    OPENSSL_free(held);
}

static void compare_bags(struct comparison *c, const STACK_OF(PKCS12_SAFEBAG) *bags, uint32_t safe, uint32_t enclosing);

static void compare_bag(struct comparison *c, const PKCS12_SAFEBAG *bag, uint32_t safe, uint32_t enclosing)
{
    uint32_t number = c->bag;
    const struct p12_bag *row = &c->table->bags[number];

    if (!need(c, number < c->table->bag_count, "fewer bags") || !need(c, row->kind == kind_of(bag), "the kind of a bag"))
        return;
    c->bag++;
    c->met[row->kind]++;
    need(c, row->safe == safe && row->enclosing == enclosing, "where a bag stands");
    if (row->kind == P12_KEY)
        same_item(c, row->parts.value, PKCS12_SAFEBAG_get0_p8inf(bag), ASN1_ITEM_rptr(PKCS8_PRIV_KEY_INFO), "a key");
    else if (row->kind == P12_SHROUDED_KEY)
        compare_shrouded(c, row->parts, PKCS12_SAFEBAG_get0_pkcs8(bag));
    else if (row->kind == P12_NESTED)
        compare_bags(c, PKCS12_SAFEBAG_get0_safes(bag), safe, number + 1);
    else
        compare_typed(c, row->parts, bag);
    compare_attributes(c, number, PKCS12_SAFEBAG_get0_attrs(bag));
}

static void compare_bags(struct comparison *c, const STACK_OF(PKCS12_SAFEBAG) *bags, uint32_t safe, uint32_t enclosing)
{
    for (int i = 0; !c->fault && i < sk_PKCS12_SAFEBAG_num(bags); i++)
        compare_bag(c, sk_PKCS12_SAFEBAG_value(bags, i), safe, enclosing);
}

/* Safes and the MAC. */

static void skip_safe(struct comparison *c, uint32_t safe)
{
    const struct p12_table *t = c->table;

    while (c->bag < t->bag_count && t->bags[c->bag].safe == safe)
        c->bag++;
    while (c->attribute < t->attribute_count && t->bags[t->attributes[c->attribute].bag].safe == safe)
        c->attribute++;
}

static void compare_plain(struct comparison *c, PKCS7 *safe, uint32_t number)
{
    STACK_OF(PKCS12_SAFEBAG) *bags = PKCS12_unpack_p7data(safe);

    c->met[PLAIN]++;
    if (bags) {
        compare_bags(c, bags, number, 0);
    } else {
        inexpressible(c, "PKCS12_unpack_p7data");
        skip_safe(c, number);
    }
    need(c, c->bag == c->table->bag_count || c->table->bags[c->bag].safe != number, "more bags");
    sk_PKCS12_SAFEBAG_pop_free(bags, PKCS12_SAFEBAG_free);
}

static void compare_safe(struct comparison *c, PKCS7 *safe, uint32_t number)
{
    const struct p12_safe *row = &c->table->safes[number];

    if (PKCS7_type_is_data(safe)) {
        if (need(c, row->kind == P12_PLAIN, "the kind of a safe"))
            compare_plain(c, safe, number);
    } else if (need(c, PKCS7_type_is_encrypted(safe) && row->kind == P12_ENCRYPTED, "the kind of a safe")) {
        const PKCS7_ENC_CONTENT *content = safe->d.encrypted->enc_data;

        c->met[ENCRYPTED]++;
        same_algorithm(c, row->parts, content->algorithm, "a safe's algorithm");
        same_octets(c, row->parts.value, content->enc_data, "a safe's ciphertext");
    }
}

static void compare_mac(struct comparison *c, const PKCS12 *p12)
{
    const struct p12_table *t = c->table;
    const ASN1_OCTET_STRING *digest, *salt;
    const X509_ALGOR *algorithm;
    const ASN1_INTEGER *iterations;

    PKCS12_get0_mac(&digest, &algorithm, &salt, &iterations, p12);
    if (!need(c, digest != NULL, "no MAC"))
        return;
    same_algorithm(c, t->mac, algorithm, "the MAC's algorithm");
    same_octets(c, t->mac.value, digest, "the digest");
    same_octets(c, t->mac_salt, salt, "the salt");
    need(c, p12_iterations(t) == (iterations ? ASN1_INTEGER_get(iterations) : 1), "the iterations");
}

static void compare_safes(struct comparison *c, const PKCS12 *p12)
{
    STACK_OF(PKCS7) *safes = PKCS12_unpack_authsafes(p12);

    if (!safes) {
        inexpressible(c, "PKCS12_unpack_authsafes");
        return;
    }
    if (need(c, (uint32_t)sk_PKCS7_num(safes) == c->table->safe_count, "the number of safes"))
        for (int i = 0; !c->fault && i < sk_PKCS7_num(safes); i++)
            compare_safe(c, sk_PKCS7_value(safes, i), (uint32_t)i);
    need(c, c->bag == c->table->bag_count && c->attribute == c->table->attribute_count, "rows that belong nowhere");
    sk_PKCS7_pop_free(safes, PKCS7_free);
}

static void compare_file(struct comparison *c)
{
    const unsigned char *at = c->file;
    PKCS12 *p12 = d2i_PKCS12(NULL, &at, (long)c->length);

    if (!p12) {
        inexpressible(c, "d2i_PKCS12");
        return;
    }
    need(c, at == c->file + c->length, "the file's end");
    compare_mac(c, p12);
    compare_safes(c, p12);
    PKCS12_free(p12);
}

/* The whole. */

struct totals {
    size_t files, accepted, agreed, differing;
    size_t met[WHATS];
};

static void show_difference(const struct comparison *c, size_t number)
{
    printf("file %zu, counted from 0, differs: %s\n", number, c->fault);
    for (size_t i = 0; i < c->length; i++)
        printf("%02x", c->file[i]);
    putchar('\n');
}

static void count_file(struct totals *totals, const uint8_t *file, size_t length)
{
    uint16_t *words = painted(sizeof(struct p12_table));
    struct p12_table table;
    size_t offset;

    if (p12_read(file, length, words, P12_TABLE_LENGTH, &offset) == P12_OK) {
        struct comparison c = { .file = file, .length = length, .table = &table };

        memcpy(&table, words, sizeof table);
        compare_file(&c);
        totals->accepted++;
        totals->differing += c.fault != NULL;
        totals->agreed += !c.fault && !c.inexpressible;
        for (int i = 0; i < WHATS && !c.fault && !c.inexpressible; i++)
            totals->met[i] += c.met[i];
        if (c.fault && totals->differing <= SHOWN)
            show_difference(&c, totals->files);
    }
    totals->files++;
    release(words, sizeof(struct p12_table));
}

static int show_totals(const struct totals *totals)
{
    int missing = 0;

    printf("files: %zu, accepted: %zu, agreed: %zu, differing: %zu\n", totals->files, totals->accepted, totals->agreed, totals->differing);
    printf("in those that agree:");
    for (int i = 1; i < WHATS; i++) {
        printf("%s %s: %zu", i > 1 ? "," : "", names[i], totals->met[i]);
        missing |= totals->met[i] == 0;
    }
    printf("\nnot taken by libcrypto as it stands: %zu\n", totals->accepted - totals->agreed - totals->differing);
    show_reasons();
    if (missing)
        printf("libcrypto: something never occurred in an agreement\n");
    if (totals->differing)
        printf("libcrypto: files differ\n");
    return missing || totals->differing;
}

int main(void)
{
    struct totals totals = { 0 };
    uint8_t *file;
    size_t length;
    int wrong;

    while ((file = next_frame(&length)) != NULL) {
        count_file(&totals, file, length);
        release(file, length);
    }
    wrong = show_totals(&totals);
    if (!wrong)
        printf("libcrypto: it and the library agree\n");
    return wrong;
}
