/*
 * Runs the emulator, and the evaluator of a description, on random images, each on its own copy, and compares memory, the machine registers, the
 * reason and the steps done.
 * Usage: random DESCRIPTION IMAGES SEED
 *
 * Image n of a run has the seed SEED + n, n from 0, so an image that differs is shown again by 1 and its own seed. The exit status is 0, 1 at the
 * first image that differs, after a line on it, or 2 if the arguments or the description's file won't do.
 */
#include <inttypes.h>
#include <stdio.h>
#include <stdlib.h>
#include <string.h>

#include "../outcome.h"

#define WORDS GUAVACHISEL_WORDS
#define MACHINE_REGISTERS 6
#define MARK 255

static const char *const names[MACHINE_REGISTERS] = {"LAC", "PC", "RUN", "INTERRUPT.ENABLE", "INTERRUPT.REQUEST", "SWITCHES"};

struct image {
    uint16_t memory[WORDS];
    guavachisel_registers registers;
};

static uint64_t state;

/* The generator splitmix64: any seed does, the next one too. */
static uint64_t next(void)
{
    uint64_t z = state += UINT64_C(0x9E3779B97F4A7C15);

    z = (z ^ (z >> 30)) * UINT64_C(0xBF58476D1CE4E5B9);
    z = (z ^ (z >> 27)) * UINT64_C(0x94D049BB133111EB);
    return z ^ (z >> 31);
}

static unsigned below(unsigned bound)
{
    return (unsigned)(next() % bound);
}

/* A word of a program: fewer halts than chance would give, more auto-indexing, interrupt words and skips. */
static uint16_t instruction(void)
{
    unsigned word = below(010000);

    switch (below(16)) {
    case 0:
        return (uint16_t)(below(6) << 9 | 0410 | below(8));
    case 1:
        return (uint16_t)(06000 | below(4));
    case 2:
        return (uint16_t)(07400 | (below(0400) & 0375));
    case 3:
        return (uint16_t)(07000 | below(0400));
    case 4:
        return (uint16_t)(02000 | below(01000));
    default:
        if ((word & 07403) == 07402 && below(16) != 0)
            word &= 07775;
        return (uint16_t)word;
    }
}

static void fill_memory(uint16_t *memory)
{
    unsigned place, dense = below(4);

    for (place = 0; place < WORDS; place++)
        memory[place] = dense == 0 ? (uint16_t)below(010000) : instruction();
    /* counters near their end and pointers into the same pages, so that words wrap and the program rewrites itself */
    for (place = 0; place < 0200; place++)
        if (below(3) == 0)
            memory[place] = below(2) == 0 ? (uint16_t)((07776 + below(4)) & 07777) : (uint16_t)(below(0400));
}

/* Page ends, page 0 and the last word come more often than by chance. */
static uint16_t start(void)
{
    switch (below(4)) {
    case 0:
        return (uint16_t)(below(040) << 7 | 0177);
    case 1:
        return (uint16_t)below(0200);
    case 2:
        return (uint16_t)(07770 + below(8));
    default:
        return (uint16_t)below(010000);
    }
}

/* The machine registers, then the shipped description's working registers: i, last.pc and eadd of 12 bits and skip of one. */
static void fill_registers(guavachisel_registers *all)
{
    uint16_t *registers = all->values;

    memset(all, 0, sizeof *all);
    registers[0] = (uint16_t)(below(4) == 0 ? 017776 + below(2) : below(020000));
    registers[1] = start();
    registers[2] = below(16) != 0;
    registers[3] = (uint16_t)below(2);
    registers[4] = (uint16_t)below(2);
    registers[5] = (uint16_t)below(010000);
    registers[6] = (uint16_t)below(010000);
    registers[7] = (uint16_t)below(010000);
    registers[8] = (uint16_t)below(010000);
    registers[9] = (uint16_t)below(2);
}

/* Says where the two ended differently; 0 if nowhere. */
static int differ(const struct image *emulated, const struct image *evaluated)
{
    int place;

    for (place = 0; place < MACHINE_REGISTERS; place++)
        if (emulated->registers.values[place] != evaluated->registers.values[place])
            return printf("%s %" PRIo16 " and %" PRIo16, names[place], emulated->registers.values[place], evaluated->registers.values[place]);
    for (place = 0; place < WORDS; place++)
        if (emulated->memory[place] != evaluated->memory[place])
            return printf("M[%04o] %04" PRIo16 " and %04" PRIo16, (unsigned)place, emulated->memory[place], evaluated->memory[place]);
    return 0;
}

/* Says what is wrong with the row list of an evaluation; 0 if nothing. */
static int malformed(const uint8_t *rows, uint64_t steps, uint64_t listed)
{
    unsigned place;

    if ((steps == 0) != (listed == 0) || listed > GUAVACHISEL_ROWS)
        return printf("%" PRIu64 " rows listed after %" PRIu64 " steps", listed, steps);
    for (place = 1; place < listed; place++)
        if (rows[place - 1] >= rows[place])
            return printf("row list not rising at place %u", place);
    for (place = (unsigned)listed; place < GUAVACHISEL_ROWS; place++)
        if (rows[place] != MARK)
            return printf("row list changed at place %u, after its %" PRIu64 " rows", place, listed);
    return 0;
}

/* Runs the emulator on an image, whose first registers are the machine's, in its order. */
static guavachisel_outcome emulate(struct image *image, uint64_t budget)
{
    guavachisel_machine machine;
    guavachisel_outcome outcome;

    memcpy(&machine, image->registers.values, sizeof machine);
    guavachisel_emulate(image->memory, WORDS, &machine, budget, &outcome);
    memcpy(image->registers.values, &machine, sizeof machine);
    return outcome;
}

/* Runs the image of a seed; 0 if both end alike. */
static int run(uint64_t seed, const uint8_t *text, size_t bytes, uint64_t *steps)
{
    static struct image emulated, evaluated;
    uint8_t rows[GUAVACHISEL_ROWS];
    uint64_t budget;
    guavachisel_outcome first, second;

    state = seed;
    fill_memory(emulated.memory);
    fill_registers(&emulated.registers);
    budget = below(8) == 0 ? below(4) : below(2001);
    evaluated = emulated;
    memset(rows, MARK, sizeof rows);
    first = emulate(&emulated, budget);
    guavachisel_evaluate(text, bytes, evaluated.memory, WORDS, &evaluated.registers, budget, rows, sizeof rows, &second);
    *steps += first.steps;
    if (first.refusal != 0 || second.refusal != 0)
        return printf("refused, with %" PRIu64 " and %" PRIu64, first.refusal, second.refusal);
    if (steps_or_place(&first, first.rows) != steps_or_place(&second, 0) || first.reason != second.reason)
        return printf("%" PRIu64 " steps, reason %" PRIu64 ", and %" PRIu64 ", %" PRIu64, first.steps, first.reason, second.steps, second.reason);
    return differ(&emulated, &evaluated) || malformed(rows, second.steps, second.rows);
}

int main(int count, char **arguments)
{
    static uint8_t text[GUAVACHISEL_TEXT_BYTES + 1];
    size_t bytes;
    FILE *file;
    uint64_t images, seed, image, steps = 0;

    if (count != 4 || (file = fopen(arguments[1], "rb")) == NULL) {
        fprintf(stderr, "usage: %s DESCRIPTION IMAGES SEED\n", arguments[0]);
        return 2;
    }
    bytes = fread(text, 1, sizeof text, file);
    fclose(file);
    images = strtoull(arguments[2], NULL, 10);
    seed = strtoull(arguments[3], NULL, 10);
    for (image = 0; image < images; image++)
        if (run(seed + image, text, bytes, &steps)) {
            printf("; the image's seed is %" PRIu64 "\n", seed + image);
            return 1;
        }
    printf("evaluate images: %" PRIu64 " ok, %" PRIu64 " steps\n", images, steps);
    return 0;
}
