/*
 * What the header says beside what the other tests try: the version, NULL with length 0, the room of a shipped description, and that what an entry doesn't speak of
 * is 0; of a constant, that all its numbers are written. It is compiled as C and as C++. The arguments are the files of the shipped descriptions, in the order of their numbers. Writes a line for each thing that
 * isn't so; the exit status is 0 if none is.
 */
#include <stdio.h>
#include <string.h>

#include "guavachisel.h"

#define MARK 0xa5

static uint16_t memory[GUAVACHISEL_WORDS];
#define DESCRIPTIONS 2

static uint8_t rows[GUAVACHISEL_ROWS], descriptions[DESCRIPTIONS][GUAVACHISEL_TEXT_BYTES], room[GUAVACHISEL_TEXT_BYTES];
static size_t lengths[DESCRIPTIONS];
static uint8_t *const shipped = descriptions[GUAVACHISEL_PLAIN], *const twin = descriptions[GUAVACHISEL_DEVICES];
static guavachisel_outcome outcome;
static int wrong;

/* What an entry with devices says it read and printed; 0 of the others. */
static uint64_t expected_read, expected_printed;

/* Compares the outcome with the numbers of all its places, and marks it for the next call. */
static void expect(const char *call, uint64_t refusal, uint64_t place, uint64_t steps, uint64_t reason, uint64_t listed, uint64_t answer)
{
    guavachisel_outcome known;

    memset(&known, 0, sizeof known);
    known.refusal = refusal;
    known.place = place;
    known.steps = steps;
    known.reason = reason;
    known.rows = listed;
    known.answer = answer;
    known.read = expected_read;
    known.printed = expected_printed;
    expected_read = expected_printed = 0;
    if (memcmp(&known, &outcome, sizeof known) != 0) {
        printf("header: outcome of %s\n", call);
        wrong = 1;
    }
    memset(&outcome, MARK, sizeof outcome);
}

static void try_read(void)
{
    guavachisel_read(NULL, 0, &outcome);
    expect("read, NULL", GUAVACHISEL_REFUSED_HEADER, 1, 0, 0, 0, 0);
    guavachisel_read(shipped, lengths[0], &outcome);
    expect("read", 0, 0, 0, 0, 0, 0);
}

/* The constant at a start, beside its numbers: all of them 0 where none is there. */
static void expect_constant(const char *call, const uint8_t *line, size_t bytes, uint64_t start, guavachisel_constant known)
{
    guavachisel_constant constant;

    memset(&constant, MARK, sizeof constant);
    guavachisel_read_constant(line, bytes, start, &constant);
    if (memcmp(&known, &constant, sizeof known) != 0) {
        printf("header: numbers of %s\n", call);
        wrong = 1;
    }
}

static void try_read_constant(void)
{
    static const uint8_t line[] = {'a', '1', '5', '#', '0', '0', '1', '7'};
    static const guavachisel_constant none = {0, 0, 0, 0, 0}, decimal = {1, 15, 31, 5, 3}, octal = {1, 15, 4095, 12, 8};

    expect_constant("read_constant, NULL", NULL, 0, 0, none);
    expect_constant("read_constant, NULL, last start", NULL, 0, UINT64_MAX, none);
    expect_constant("read_constant, a name", line, sizeof line, 0, none);
    expect_constant("read_constant, a decimal", line, sizeof line, 1, decimal);
    expect_constant("read_constant, an octal constant", line, sizeof line, 3, octal);
    expect_constant("read_constant, the end", line, sizeof line, sizeof line, none);
    expect_constant("read_constant, past the end", line, sizeof line, (UINT64_C(1) << 32) + 1, none);
    expect_constant("read_constant, the last start", line, sizeof line, UINT64_MAX, none);
}

static void try_emulate(void)
{
    guavachisel_machine machine = {0, 0, 1, 0, 0, 0};

    guavachisel_emulate(NULL, 0, &machine, 1, &outcome);
    expect("emulate, NULL", GUAVACHISEL_REFUSED_MEMORY, 0, 0, 0, 0, 0);
    guavachisel_emulate(memory, GUAVACHISEL_WORDS, &machine, GUAVACHISEL_BUDGET + 1, &outcome);
    expect("emulate, budget", GUAVACHISEL_REFUSED_BUDGET, 0, 0, 0, 0, 0);
    machine.switches = 4096;
    guavachisel_emulate(memory, GUAVACHISEL_WORDS, &machine, 1, &outcome);
    expect("emulate, switches", GUAVACHISEL_REFUSED_VALUE, 5, 0, 0, 0, 0);
    machine.switches = 0;
    guavachisel_emulate(memory, GUAVACHISEL_WORDS, &machine, 7, &outcome);
    expect("emulate", 0, 0, 7, GUAVACHISEL_SPENT, 0, 0);
}

static void try_evaluate(void)
{
    guavachisel_registers registers;

    memset(&registers, 0, sizeof registers);
    guavachisel_evaluate(NULL, 0, NULL, 0, &registers, 1, NULL, 0, &outcome);
    expect("evaluate, NULL text", GUAVACHISEL_REFUSED_HEADER, 1, 0, 0, 0, 0);
    guavachisel_evaluate(shipped, lengths[0], NULL, 0, &registers, 1, rows, GUAVACHISEL_ROWS, &outcome);
    expect("evaluate, NULL memory", GUAVACHISEL_REFUSED_MEMORY, 0, 0, 0, 0, 0);
    guavachisel_evaluate(shipped, lengths[0], memory, GUAVACHISEL_WORDS, &registers, 1, NULL, 0, &outcome);
    expect("evaluate, NULL rows", GUAVACHISEL_REFUSED_ROW_LIST, 0, 0, 0, 0, 0);
    guavachisel_evaluate(shipped, lengths[0], memory, GUAVACHISEL_WORDS, &registers, 1, rows, GUAVACHISEL_ROWS, &outcome);
    expect("evaluate, RUN 0", 0, 0, 0, GUAVACHISEL_HALTED, 0, 0);
    registers.values[2] = 1;
    memory[0] = 07402;
    guavachisel_evaluate(shipped, lengths[0], memory, GUAVACHISEL_WORDS, &registers, 9, rows, GUAVACHISEL_ROWS, &outcome);
    expect("evaluate", 0, 0, 1, GUAVACHISEL_HALTED, 8, 0);
}

/* Two bytes typed, and KRB, TLS, HLT: the first is printed, the place behind it stays, and its mark is gone once the printer's flag has risen. */
static void expect_echo(const char *call, const uint8_t *output, uint64_t mark)
{
    if (output[0] != 'H' || output[1] != MARK || mark != 0) {
        printf("header: output of %s\n", call);
        wrong = 1;
    }
}

static void try_emulate_devices(void)
{
    guavachisel_machine machine = {0, 0, 1, 0, 0, 0};
    guavachisel_devices devices = {0, 0, 0, 0, 0};
    uint8_t output[2] = {MARK, MARK};

    guavachisel_emulate_devices(NULL, 0, &machine, &devices, 1, NULL, 0, NULL, 0, &outcome);
    expect("emulate_devices, NULL", GUAVACHISEL_REFUSED_MEMORY, 0, 0, 0, 0, 0);
    devices.print_mark = 2;
    guavachisel_emulate_devices(memory, GUAVACHISEL_WORDS, &machine, &devices, 1, (const uint8_t *)"HI", 2, output, 2, &outcome);
    expect("emulate_devices, mark", GUAVACHISEL_REFUSED_VALUE, 10, 0, 0, 0, 0);
    devices.print_mark = 0;
    guavachisel_emulate_devices(memory, GUAVACHISEL_WORDS, &machine, &devices, 1, (const uint8_t *)"HI", 2, NULL, 0, &outcome);
    expect("emulate_devices, no room", 0, 0, 0, GUAVACHISEL_PAPER, 0, 0);
    memory[0] = 06036;
    memory[1] = 06046;
    memory[2] = 07402;
    expected_read = 2;
    expected_printed = 1;
    guavachisel_emulate_devices(memory, GUAVACHISEL_WORDS, &machine, &devices, 9, (const uint8_t *)"HI", 2, output, 2, &outcome);
    expect("emulate_devices", 0, 0, 3, GUAVACHISEL_HALTED, 0, 0);
    expect_echo("emulate_devices", output, devices.print_mark);
}

static void try_evaluate_devices(void)
{
    guavachisel_registers registers;
    uint8_t output[2] = {MARK, MARK};

    memset(&registers, 0, sizeof registers);
    guavachisel_evaluate_devices(NULL, 0, NULL, 0, &registers, 1, NULL, 0, NULL, 0, NULL, 0, &outcome);
    expect("evaluate_devices, NULL text", GUAVACHISEL_REFUSED_HEADER, 1, 0, 0, 0, 0);
    registers.values[2] = 1;
    guavachisel_evaluate_devices(shipped, lengths[0], memory, GUAVACHISEL_WORDS, &registers, 0, rows, GUAVACHISEL_ROWS, (const uint8_t *)"HI", 2, NULL, 0, &outcome);
    expect("evaluate_devices, a description without", 0, 0, 0, GUAVACHISEL_SPENT, 0, 0);
    guavachisel_evaluate_devices(twin, lengths[1], memory, GUAVACHISEL_WORDS, &registers, 0, rows, GUAVACHISEL_ROWS, (const uint8_t *)"HI", 2, NULL, 0, &outcome);
    expect("evaluate_devices, no room", 0, 0, 0, GUAVACHISEL_PAPER, 0, 0);
    expected_read = 2;
    expected_printed = 1;
    guavachisel_evaluate_devices(twin, lengths[1], memory, GUAVACHISEL_WORDS, &registers, 9, rows, GUAVACHISEL_ROWS, (const uint8_t *)"HI", 2, output, 2, &outcome);
    expect("evaluate_devices", 0, 0, 3, GUAVACHISEL_HALTED, 8, 0);
    expect_echo("evaluate_devices", output, registers.values[10]);
}

/* Whether the room begins with so many bytes of the description, and has only marks after them; then marks it all. */
static void begins(const char *call, const uint8_t *text, size_t count)
{
    size_t place;
    int good = memcmp(room, text, count) == 0;

    for (place = count; place < sizeof room; place++)
        good &= room[place] == MARK;
    if (!good) {
        printf("header: room of %s\n", call);
        wrong = 1;
    }
    memset(room, MARK, sizeof room);
}

static void try_description(uint64_t which, const uint8_t *text, size_t bytes)
{
    guavachisel_shipped(which, NULL, 0, &outcome);
    expect("shipped, NULL", 0, 0, 0, 0, 0, bytes);
    guavachisel_shipped(which, room, bytes - 1, &outcome);
    expect("shipped, one byte short", 0, 0, 0, 0, 0, bytes);
    begins("shipped, one byte short", text, 0);
    guavachisel_shipped(which, room, bytes, &outcome);
    expect("shipped, room of its length", 0, 0, 0, 0, 0, bytes);
    begins("shipped, room of its length", text, bytes);
    guavachisel_shipped(which, room, sizeof room, &outcome);
    expect("shipped, more room", 0, 0, 0, 0, 0, bytes);
    begins("shipped, more room", text, bytes);
}

static void try_shipped(void)
{
    uint64_t which;

    memset(room, MARK, sizeof room);
    for (which = 0; which < DESCRIPTIONS; which++)
        try_description(which, descriptions[which], lengths[which]);
    for (which = DESCRIPTIONS; which != 0; which *= 2) {
        guavachisel_shipped(which, room, sizeof room, &outcome);
        expect("shipped, another number", 0, 0, 0, 0, 0, 0);
        begins("shipped, another number", shipped, 0);
    }
}

/* Takes a description's file; 1 if it can be read. */
static int take(int which, const char *name)
{
    FILE *file = fopen(name, "rb");

    if (file == NULL)
        return 0;
    lengths[which] = fread(descriptions[which], 1, GUAVACHISEL_TEXT_BYTES, file);
    fclose(file);
    return 1;
}

int main(int count, char **arguments)
{
    if (count != 1 + DESCRIPTIONS || !take(0, arguments[1]) || !take(1, arguments[2])) {
        fprintf(stderr, "usage: %s DESCRIPTION DESCRIPTION\n", arguments[0]);
        return 2;
    }
    if (guavachisel_version() != GUAVACHISEL_VERSION) {
        printf("header: version\n");
        wrong = 1;
    }
    memset(&outcome, MARK, sizeof outcome);
    try_read();
    try_read_constant();
    try_emulate();
    try_evaluate();
    try_emulate_devices();
    try_evaluate_devices();
    try_shipped();
    return wrong;
}
