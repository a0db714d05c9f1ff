/*
 * Runs guavachisel_read_constant on the lines of standard input, at every start, at the line's end and at the two places past it, and writes a line for each: the
 * line's number in the list, from 1, the start, found, value, matter, width and after, parted by TABs.
 *
 * How a line is written is said in ../forms.h. Empty lines, and lines that begin with a colon, are passed over.
 *
 * The exit status is 0, or 2 with a message if a line isn't one.
 */
#include <inttypes.h>
#include <stdio.h>

#include "../forms.h"
#include "guavachisel.h"

#define PAST 3

int main(void)
{
    static char line[65536];
    static struct text text;
    guavachisel_constant constant;
    unsigned place = 0, number = 0;
    uint64_t start;

    while (fgets(line, sizeof line, stdin) != NULL) {
        place++;
        if (line[0] == ':' || line[0] == '\n')
            continue;
        text.length = 0;
        if (read_forms(line, &text, '\n') == NULL) {
            fprintf(stderr, "line %u: not a line\n", place);
            return 2;
        }
        number++;
        /* so that a reader that goes past the end finds a digit */
        text.bytes[text.length] = '1';
        for (start = 0; start < text.length + PAST; start++) {
            memset(&constant, 0xff, sizeof constant);
            guavachisel_read_constant(text.bytes, text.length, start, &constant);
            printf("%u\t%" PRIu64 "\t%" PRIu64 "\t%" PRIu64 "\t%" PRIu64 "\t%" PRIu64 "\t%" PRIu64 "\n", number, start, constant.found, constant.value, constant.matter,
                   constant.width, constant.after);
        }
    }
    return 0;
}
