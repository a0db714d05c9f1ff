/*
 * Runs guavachisel_emulate on the cases of standard input and writes one line for each.
 *
 * A case is one line, its fields parted by spaces:
 *
 *   name LAC PC RUN INTERRUPT.ENABLE INTERRUPT.REQUEST SWITCHES budget [words=N] [address=word ...]
 *
 * Registers, addresses and words are octal; the budget and N are decimal. N is the memory length handed over, 4096 if it isn't given.
 * Addresses go from 0 to 17777, so that words past the memory's end can be given too; a word that isn't given is 0. Registers and words may
 * have up to 16 bits and the budget up to 64. Empty lines and lines that begin with # are passed over.
 *
 * The line written for a case:
 *
 *   name refusal steps reason LAC PC RUN INTERRUPT.ENABLE INTERRUPT.REQUEST SWITCHES [address=word ...]
 *
 * After a refusal its place stands for the steps. The outcome is decimal, all else octal. The words are those that differ from what was given, past the
 * memory's end too, by rising address.
 *
 * The exit status is 0, or 2 with a message if a line isn't a case.
 */
#include <errno.h>
#include <inttypes.h>
#include <stdio.h>
#include <stdlib.h>
#include <string.h>

#include "../outcome.h"

#define PLACES 8192

struct test_case {
    const char *name;
    uint16_t memory[PLACES];
    size_t words;
    guavachisel_machine machine;
    uint64_t budget;
};

/* Reads the whole of `text` as a number of at most `limit`; 0 if it isn't one. */
static int read_number(const char *text, int base, uint64_t limit, uint64_t *number)
{
    char *end;
    unsigned long long value;

    if (text == NULL || *text < '0' || *text > '9')
        return 0;
    errno = 0;
    value = strtoull(text, &end, base);
    if (errno != 0 || *end != '\0' || value > limit)
        return 0;
    *number = value;
    return 1;
}

/* Reads `words=N` or `address=word`; 0 if the field is neither. */
static int read_memory_field(char *field, struct test_case *test)
{
    uint64_t address, word, words;
    char *value = strchr(field, '=');

    if (value == NULL)
        return 0;
    *value++ = '\0';
    if (strcmp(field, "words") == 0) {
        if (!read_number(value, 10, PLACES, &words))
            return 0;
        test->words = (size_t)words;
        return 1;
    }
    if (!read_number(field, 8, PLACES - 1, &address) || !read_number(value, 8, UINT16_MAX, &word))
        return 0;
    test->memory[address] = (uint16_t)word;
    return 1;
}

/* Reads the next field as a register; 0 if it isn't one. */
static int read_register(uint16_t *value)
{
    uint64_t number;

    if (!read_number(strtok(NULL, " \n"), 8, UINT16_MAX, &number))
        return 0;
    *value = (uint16_t)number;
    return 1;
}

/* Reads a case, whose name stays in `line`; 0 if the line isn't one. */
static int read_case(char *line, struct test_case *test)
{
    guavachisel_machine *machine = &test->machine;
    char *field;

    memset(test, 0, sizeof *test);
    test->words = GUAVACHISEL_WORDS;
    test->name = strtok(line, " \n");
    if (!read_register(&machine->lac) || !read_register(&machine->pc) || !read_register(&machine->run) || !read_register(&machine->interrupt_enable) ||
        !read_register(&machine->interrupt_request) || !read_register(&machine->switches))
        return 0;
    if (!read_number(strtok(NULL, " \n"), 10, UINT64_MAX, &test->budget))
        return 0;
    while ((field = strtok(NULL, " \n")) != NULL)
        if (!read_memory_field(field, test))
            return 0;
    return 1;
}

static void run_case(const struct test_case *test)
{
    static struct test_case after;
    const guavachisel_machine *machine = &after.machine;
    guavachisel_outcome outcome;
    unsigned address;

    after = *test;
    memset(&outcome, 0xff, sizeof outcome);
    guavachisel_emulate(after.memory, after.words, &after.machine, after.budget, &outcome);

    printf("%s %" PRIu64 " %" PRIu64 " %" PRIu64, test->name, outcome.refusal, steps_or_place(&outcome, outcome.rows), outcome.reason);
    printf(" %05o %04o %o %o %o %04o", machine->lac, machine->pc, machine->run, machine->interrupt_enable, machine->interrupt_request, machine->switches);
    for (address = 0; address < PLACES; address++)
        if (after.memory[address] != test->memory[address])
            printf(" %04o=%04o", address, after.memory[address]);
    printf("\n");
}

int main(void)
{
    static char line[131072];
    static struct test_case test;
    unsigned number = 0;

    while (fgets(line, sizeof line, stdin) != NULL) {
        number++;
        if (strchr(line, '\n') == NULL) {
            fprintf(stderr, "line %u: too long, or without a line end\n", number);
            return 2;
        }
        if (line[0] == '#' || line[strspn(line, " \n")] == '\0')
            continue;
        if (!read_case(line, &test)) {
            fprintf(stderr, "line %u: not a case\n", number);
            return 2;
        }
        run_case(&test);
    }
    return 0;
}
