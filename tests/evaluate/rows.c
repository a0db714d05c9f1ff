/*
 * Runs guavachisel_evaluate on the cases of standard input and writes one line for each, its parts separated by TABs: the case's number in the list,
 * from 1; refusal, steps (after a refusal its place), reason and rows of the outcome; the registers, in octal, without the zeros at the end; the rows
 * listed, or -; the memory words that changed, as address=word in octal, or -.
 *
 * A case is one line, its fields separated by " | ":
 *   the description's text, in which \t stands for TAB, \n for LF, \H for the head that most cases share (HEAD below), and \{N:..} for N times what
 *   stands between the colon and the brace, which holds no braces; other characters stand for themselves;
 *   the registers' values at the start, in octal, 0 for those left out;
 *   the budget, in decimal;
 *   address=word, in octal, for the memory words that aren't 0, and words=N or places=N, in decimal, if memory isn't 4,096 words or the row list
 *   isn't 128 places long; or -.
 * Empty lines and lines that begin with # are passed over.
 *
 * Place k of the row list starts as MARK(k), which is no row's number. A place after the listed rows that was changed is shown as place=value, in
 * brackets. The exit status is 0, or 2 with a message if a line isn't a case.
 */
#include <inttypes.h>
#include <stdio.h>
#include <stdlib.h>
#include <string.h>

#include "../outcome.h"

#define HEAD "rows\t1\nreg\tRUN\t1\nreg\ta\t1\nreg\tb\t12\nreg\tc\t13\nreg\td\t16\nreg\tr\t16\nreg\tk\t5\n"
#define MOST_BYTES 40000
#define MOST_WORDS 5000
#define MOST_PLACES 256
#define MARK(k) ((uint8_t)(200 + (k) % 50))

struct call {
    char text[MOST_BYTES];
    size_t bytes;
    guavachisel_registers registers;
    uint64_t budget;
    uint16_t memory[MOST_WORDS], before[MOST_WORDS];
    size_t words;
    uint8_t rows[MOST_PLACES];
    size_t places;
    guavachisel_outcome outcome;
};

/* Appends `count` bytes `times` times; 0 if there is no room. */
static int append(struct call *call, const char *bytes, size_t count, unsigned long times)
{
    for (; times > 0; times--) {
        if (count > MOST_BYTES - call->bytes)
            return 0;
        memcpy(call->text + call->bytes, bytes, count);
        call->bytes += count;
    }
    return 1;
}

static int read_text(struct call *call, const char *form, const char *end);

/* Reads `N:..}`; what follows it, or NULL. */
static const char *read_repetition(struct call *call, const char *form)
{
    static char once[MOST_BYTES];
    char *colon;
    unsigned long times = strtoul(form, &colon, 10);
    const char *brace = strchr(form, '}');
    size_t start = call->bytes, count;

    if (*colon != ':' || brace == NULL || !read_text(call, colon + 1, brace))
        return NULL;
    count = call->bytes - start;
    memcpy(once, call->text + start, count);
    call->bytes = start;
    return append(call, once, count, times) ? brace + 1 : NULL;
}

/* Reads what follows a backslash; what follows that, or NULL. */
static const char *read_escape(struct call *call, const char *form)
{
    switch (*form) {
    case 't':
        return append(call, "\t", 1, 1) ? form + 1 : NULL;
    case 'n':
        return append(call, "\n", 1, 1) ? form + 1 : NULL;
    case 'H':
        return append(call, HEAD, strlen(HEAD), 1) ? form + 1 : NULL;
    case '{':
        return read_repetition(call, form + 1);
    default:
        return NULL;
    }
}

static int read_text(struct call *call, const char *form, const char *end)
{
    while (form != NULL && form < end) {
        if (*form == '\\')
            form = read_escape(call, form + 1);
        else
            form = append(call, form, 1, 1) ? form + 1 : NULL;
    }
    return form == end;
}

static int read_registers(struct call *call, char *field)
{
    int place = 0;
    char *end, *word;

    for (word = strtok(field, " "); word != NULL; word = strtok(NULL, " ")) {
        unsigned long value = strtoul(word, &end, 8);
        if (place == GUAVACHISEL_REGISTERS || *end != '\0' || value > UINT16_MAX)
            return 0;
        call->registers.values[place++] = (uint16_t)value;
    }
    return place > 0;
}

/* Reads one part of a case's last field. */
static int read_setting(struct call *call, const char *word)
{
    char *end;
    unsigned long address, value;

    if (strncmp(word, "words=", 6) == 0) {
        call->words = strtoul(word + 6, &end, 10);
        return *end == '\0' && call->words <= MOST_WORDS;
    }
    if (strncmp(word, "places=", 7) == 0) {
        call->places = strtoul(word + 7, &end, 10);
        return *end == '\0' && call->places <= MOST_PLACES;
    }
    address = strtoul(word, &end, 8);
    if (*end != '=' || address >= MOST_WORDS)
        return 0;
    value = strtoul(end + 1, &end, 8);
    call->memory[address] = (uint16_t)value;
    return *end == '\0' && value <= UINT16_MAX;
}

static int read_settings(struct call *call, char *field)
{
    char *word;

    if (strcmp(field, "-") == 0)
        return 1;
    for (word = strtok(field, " "); word != NULL; word = strtok(NULL, " "))
        if (!read_setting(call, word))
            return 0;
    return 1;
}

/* Ends the field at the next " | "; the field after it, or NULL. */
static char *part(char *field)
{
    char *bar = field == NULL ? NULL : strstr(field, " | ");

    if (bar == NULL)
        return NULL;
    *bar = '\0';
    return bar + 3;
}

static int read_case(struct call *call, char *line)
{
    char *registers = part(line), *budget = part(registers), *settings = part(budget), *end;
    size_t place;

    memset(call, 0, sizeof *call);
    call->words = GUAVACHISEL_WORDS;
    call->places = GUAVACHISEL_ROWS;
    for (place = 0; place < MOST_PLACES; place++)
        call->rows[place] = MARK(place);
    if (settings == NULL || !read_text(call, line, line + strlen(line)) || !read_registers(call, registers) || !read_settings(call, settings))
        return 0;
    call->budget = strtoull(budget, &end, 10);
    memcpy(call->before, call->memory, sizeof call->memory);
    return *end == '\0';
}

static void write_registers(const struct call *call)
{
    int count = GUAVACHISEL_REGISTERS, place;

    while (count > 1 && call->registers.values[count - 1] == 0)
        count--;
    for (place = 0; place < count; place++)
        printf("%c%" PRIo16, place == 0 ? '\t' : ' ', call->registers.values[place]);
}

static void write_rows(const struct call *call)
{
    size_t place, listed = call->outcome.rows < MOST_PLACES ? (size_t)call->outcome.rows : MOST_PLACES;

    printf(listed == 0 ? "\t-" : "\t");
    for (place = 0; place < listed; place++)
        printf(place == 0 ? "%u" : " %u", call->rows[place]);
    for (; place < MOST_PLACES; place++)
        if (call->rows[place] != MARK(place))
            printf(" [%zu=%u]", place, call->rows[place]);
}

static void write_memory(const struct call *call)
{
    int changed = 0;
    size_t place;

    for (place = 0; place < MOST_WORDS; place++)
        if (call->memory[place] != call->before[place])
            printf("%c%04zo=%04" PRIo16, changed++ == 0 ? '\t' : ' ', place, call->memory[place]);
    printf(changed == 0 ? "\t-\n" : "\n");
}

int main(void)
{
    static char line[65536];
    static struct call call;
    unsigned place = 0, number = 0;

    while (fgets(line, sizeof line, stdin) != NULL) {
        place++;
        if (line[0] == '#' || line[0] == '\n')
            continue;
        line[strcspn(line, "\n")] = '\0';
        if (!read_case(&call, line)) {
            fprintf(stderr, "line %u: not a case\n", place);
            return 2;
        }
        memset(&call.outcome, 0xff, sizeof call.outcome);
        guavachisel_evaluate((const uint8_t *)call.text, call.bytes, call.memory, call.words, &call.registers, call.budget, call.rows, call.places,
                             &call.outcome);
        printf("%u\t%" PRIu64 "\t%" PRIu64 "\t%" PRIu64 "\t%" PRIu64, ++number, call.outcome.refusal, steps_or_place(&call.outcome, 0), call.outcome.reason,
               call.outcome.rows);
        write_registers(&call);
        write_rows(&call);
        write_memory(&call);
    }
    return 0;
}
