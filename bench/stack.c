/* The bytes of stack that one call of each kind uses, and the C walker.

       stack FILE ..    one row a file

   p12_attribute and p12_certificate_for are called for what calls.c says. A '-': there is no table, attribute or key. */
#include "common.h"
#include "peers.h"
#include "walker.h"

static size_t walker(const uint8_t *file, size_t n)
{
    static struct table walked;
    struct fault fault;

    return (size_t)walk(file, n, &walked, &fault);
}

/* Begin, one portion, end: the deepest of the three. */
static size_t call_upload(const uint8_t *file, size_t n)
{
    uint16_t state[P12_UPLOAD_LENGTH];
    size_t offset, after, elements, level;

    p12_upload_begin(n, state, P12_UPLOAD_LENGTH);
    p12_upload_take(state, P12_UPLOAD_LENGTH, file, n);
    p12_upload_end(state, P12_UPLOAD_LENGTH, &offset, &after, &elements, &level);
    return elements;
}

/* Export, then import of that text: the deeper of the two. */
static size_t call_texts(const uint8_t *file, size_t n)
{
    static uint8_t text[P12_TEXT_BYTES], bytes[P12_FILE_BYTES];
    size_t size, count, offset;

    p12_export(file, n, text, sizeof text, &size);
    p12_import(text, size, bytes, sizeof bytes, &count, &offset);
    return count;
}

static void show_stack(int there, peer call, const uint8_t *file, size_t n)
{
    if (there)
        printf(" %9zu", stack_of(call, file, n));
    else
        printf(" %9s", "-");
}

static int stack_of_file(const char *name, const uint8_t *file, size_t n)
{
    int accepted = prepare(file, n);

    printf("%-28s %6zu", name, n);
    show_stack(1, call_read, file, n);
    show_stack(accepted, call_write, file, n);
    show_stack(1, call_mac_input, file, n);
    show_stack(1, call_list, file, n);
    show_stack(1, call_pairs, file, n);
    show_stack(table.attribute_count > 0, call_attribute, file, n);
    show_stack(subjects.keys > 0, call_certificate_for, file, n);
    show_stack(1, call_upload, file, n);
    show_stack(1, call_texts, file, n);
    show_stack(1, walker, file, n);
    puts("");
    return 0;
}

int main(int argc, char **argv)
{
    return each_file(argc, argv,
        "stack in bytes                bytes      read     write mac_input      list     pairs attribute  cert_for"
        "    upload     texts         c", stack_of_file);
}
