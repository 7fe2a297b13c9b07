/* The other calls of the library, in one run on the same files:
     mac_input   p12_mac_input, which reads the file
     list        p12_list, which reads the file
     c list      the same listing by the C walker, with snprintf (walker_list.c)
     attribute   one p12_attribute: the last attribute of the last bag that has one
     all         a run over all bags, each up to P12_DONE
     cert_for    one p12_certificate_for: the first key
     all         a run over all keys
   The last four are given the table that p12_read made before the clock.

       calls FILE ..    one row a file; exit status 1 where the two listings differ, where the MAC input isn't the table's, or
                        where the run over all bags gives more or fewer attributes than the table has

   A '!' behind a time: the call refuses, or no key has a certificate. A '-': there is no attribute or no key. */
#include "common.h"
#include "peers.h"
#include "walker.h"

#include <string.h>

enum { MAC_INPUT, LIST, WALKER, ATTRIBUTE, ATTRIBUTES, CERTIFICATE, CERTIFICATES, CALLS };

static char text[P12_LISTING_BYTES + 1];

static size_t list_walker(const uint8_t *file, size_t n)
{
    static struct table walked;

    return walker_list(file, n, &walked, text, sizeof text);
}

static int same_listing(const uint8_t *file, size_t n)
{
    size_t length = call_list(file, n);

    return length == list_walker(file, n) && memcmp(listing, text, length) == 0;
}

static int same_mac_input(const uint8_t *file, size_t n)
{
    size_t start, end;

    p12_mac_input(file, n, &start, &end);
    return start == table.mac_input.start && end == table.mac_input.end;
}

static const char *fault(const uint8_t *file, size_t n)
{
    if (!same_listing(file, n))
        return "p12_list and the walker's listing differ";
    if (!same_mac_input(file, n))
        return "p12_mac_input and the table differ";
    if (call_attributes(file, n) != table.attribute_count)
        return "p12_attribute gives more or fewer attributes than the table has";
    return NULL;
}

static int time_file(const char *name, const uint8_t *file, size_t n)
{
    peer peers[CALLS] = { call_mac_input, call_list, list_walker };
    double ns[CALLS];
    char mark[CALLS];
    int accepted = prepare(file, n);
    const char *what = fault(file, n);

    if (what)
        return wrong(name, what);
    if (table.attribute_count) {
        peers[ATTRIBUTE] = call_attribute;
        peers[ATTRIBUTES] = call_attributes;
    }
    if (subjects.keys) {
        peers[CERTIFICATE] = call_certificate_for;
        peers[CERTIFICATES] = call_certificates;
    }
    for (int k = 0; k < CALLS; k++)
        mark[k] = accepted && (!peers[k] || peers[k](file, n)) ? ' ' : '!';
    best(peers, CALLS, file, n, ns);
    printf("%-28s %6zu", name, n);
    for (int k = MAC_INPUT; k <= WALKER; k++)
        show_ns(ns[k], mark[k]);
    show_ratio(accepted ? ns[LIST] : 0, ns[WALKER]);
    printf(" %5u", table.attribute_count);
    show_ns(ns[ATTRIBUTE], mark[ATTRIBUTE]);
    show_ns(ns[ATTRIBUTES], mark[ATTRIBUTES]);
    printf(" %4zu", subjects.keys);
    show_ns(ns[CERTIFICATE], mark[CERTIFICATE]);
    show_ns(ns[CERTIFICATES], mark[CERTIFICATES]);
    puts("");
    return 0;
}

int main(int argc, char **argv)
{
    return each_file(argc, argv,
        "other calls, ns               bytes mac_input       list     c list      list/c"
        " attrs attribute        all  keys  cert_for        all", time_file);
}
