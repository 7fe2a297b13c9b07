/* See reasons.h. */
#include "reasons.h"

#include <openssl/err.h>
#include <stdio.h>
#include <string.h>

enum { REASONS = 200, TEXT = 160 };

static struct {
    char text[TEXT];
    size_t count;
} reasons[REASONS];

/* The first error says what is wrong, and the first one with data which field it is in. */
static void text_of(const char *call, char *text)
{
    unsigned long error, first = 0;
    const char *data, *field = "";
    int flags;

    while ((error = ERR_get_error_all(NULL, NULL, NULL, &data, &flags)) != 0) {
        if (!first)
            first = error;
        if (!*field && data && flags & ERR_TXT_STRING)
            field = data;
    }
    if (first)
        snprintf(text, TEXT, "%s: %s, %s", call, ERR_reason_error_string(first), field);
    else
        snprintf(text, TEXT, "%s", call);
}

void count_reason(const char *call)
{
    char text[TEXT];
    int i = 0;

    text_of(call, text);
    while (i < REASONS - 1 && reasons[i].count && strcmp(reasons[i].text, text) != 0)
        i++;
    if (i == REASONS - 1)
        strcpy(text, "other reasons");
    memcpy(reasons[i].text, text, TEXT);
    reasons[i].count++;
}

void show_reasons(void)
{
    for (int i = 0; i < REASONS && reasons[i].count; i++)
        printf("  %zu  %s\n", reasons[i].count, reasons[i].text);
}
