/*
 * Runs guavachisel_read on the texts of standard input and writes one line for each: the text's number in the list, from 1, refusal
 * and line, parted by TABs.
 *
 * How a text is written is said in ../forms.h. Empty lines and lines that begin with # are passed over.
 *
 * The exit status is 0, or 2 with a message if a line isn't a text.
 */
#include <inttypes.h>
#include <stdio.h>

#include "../forms.h"
#include "../outcome.h"

int main(void)
{
    static char line[65536];
    static struct text text;
    guavachisel_outcome outcome;
    unsigned place = 0, number = 0;

    while (fgets(line, sizeof line, stdin) != NULL) {
        place++;
        if (line[0] == '#' || line[0] == '\n')
            continue;
        text.length = 0;
        if (read_forms(line, &text, '\n') == NULL) {
            fprintf(stderr, "line %u: not a text\n", place);
            return 2;
        }
        /* so that a reader that goes past the end finds the LF that a text may lack */
        text.bytes[text.length] = '\n';
        memset(&outcome, 0xff, sizeof outcome);
        guavachisel_read(text.bytes, text.length, &outcome);
        printf("%u\t%" PRIu64 "\t%" PRIu64 "\n", ++number, outcome.refusal, steps_or_place(&outcome, outcome.steps | outcome.reason | outcome.rows));
    }
    return 0;
}
