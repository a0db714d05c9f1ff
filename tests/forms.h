/*
 * How the tests of the readers write a text or a line: on one line, in which \t stands for TAB, \n for LF, \\ for a backslash, \xHH for the byte with these two
 * hexadecimal digits, and \{N:..} for N times what stands between the colon and the brace; that may hold all these forms again, and \x7D for a brace. Other
 * characters stand for themselves. The empty text is \{0:}.
 */
#ifndef FORMS_H
#define FORMS_H

#include <ctype.h>
#include <stdint.h>
#include <stdlib.h>
#include <string.h>

#define MOST_BYTES 1000000

struct text {
    uint8_t bytes[MOST_BYTES + 1];
    size_t length;
};

static const char *read_forms(const char *form, struct text *text, char end);

/* Appends bytes, which may be the text's own; 0 if there is no room. */
static int append(struct text *text, const void *bytes, size_t count)
{
    if (count > MOST_BYTES - text->length)
        return 0;
    memmove(text->bytes + text->length, bytes, count);
    text->length += count;
    return 1;
}

/* Reads `N:..}`; what follows it, or NULL. */
static const char *read_repetition(const char *form, struct text *text)
{
    size_t start = text->length, count;
    char *colon;
    unsigned long times = strtoul(form, &colon, 10);

    if (!isdigit((unsigned char)*form) || *colon != ':')
        return NULL;
    form = read_forms(colon + 1, text, '}');
    if (form == NULL)
        return NULL;
    count = text->length - start;
    text->length = start;
    for (; times > 0; times--)
        if (!append(text, text->bytes + start, count))
            return NULL;
    return form + 1;
}

/* Reads what follows a backslash; what follows that, or NULL. */
static const char *read_escape(const char *form, struct text *text)
{
    char digits[3] = {0};
    uint8_t byte;

    switch (*form) {
    case 't':
        return append(text, "\t", 1) ? form + 1 : NULL;
    case 'n':
        return append(text, "\n", 1) ? form + 1 : NULL;
    case '\\':
        return append(text, "\\", 1) ? form + 1 : NULL;
    case '{':
        return read_repetition(form + 1, text);
    case 'x':
        if (!isxdigit((unsigned char)form[1]) || !isxdigit((unsigned char)form[2]))
            return NULL;
        memcpy(digits, form + 1, 2);
        byte = (uint8_t)strtoul(digits, NULL, 16);
        return append(text, &byte, 1) ? form + 3 : NULL;
    default:
        return NULL;
    }
}

/* Reads up to `end`, which is where it stops, or NULL. */
static const char *read_forms(const char *form, struct text *text, char end)
{
    while (form != NULL && *form != end) {
        if (*form == '\0')
            return NULL;
        if (*form == '\\')
            form = read_escape(form + 1, text);
        else
            form = append(text, form, 1) ? form + 1 : NULL;
    }
    return form;
}

#endif
