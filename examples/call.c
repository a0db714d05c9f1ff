/*
 * The entries from C: the day's image run by the emulator, and by the evaluator of the shipped description; a description of our own, read and run; the constants of
 * an expression; and a program that answers at the teleprinter, on the machine with devices and on the twin of the shipped description.
 */
#include <guavachisel.h>
#include <inttypes.h>
#include <stdio.h>
#include <string.h>

/* Two registers and two rows: count counts up, and RUN stops the run at 3. */
static const char counter[] = "rows\t1\n"
                              "reg\tRUN\t1\n"
                              "reg\tcount\t8\n"
                              "do\t1\tcount\tcount + 1\n"
                              "do\tcount Eql 3\tRUN\t0\n";

static uint16_t memory[GUAVACHISEL_WORDS];
static uint8_t shipped[GUAVACHISEL_TEXT_BYTES];

/* CLA CLL; TAD 0204; IAC; HLT; and the word 7777 */
static void load(void)
{
    memory[0200] = 07300;
    memory[0201] = 01204;
    memory[0202] = 07001;
    memory[0203] = 07402;
    memory[0204] = 07777;
}

static const char *ended(const guavachisel_outcome *outcome)
{
    static const char *const reasons[] = {"refused", "halted", "spent", "paper"};

    return reasons[outcome->reason];
}

static void print_rows(const uint8_t *rows, uint64_t listed)
{
    printf(", rows that acted last:");
    for (uint64_t n = 0; n < listed; n++)
        printf(" %d", rows[n]);
    printf("\n");
}

static void emulate(void)
{
    guavachisel_machine machine = {.pc = 0200, .run = 1};
    guavachisel_outcome outcome;

    load();
    guavachisel_emulate(memory, GUAVACHISEL_WORDS, &machine, 16, &outcome);
    printf("emulate: %" PRIu64 " steps, %s, LAC %05o\n", outcome.steps, ended(&outcome), machine.lac);

    /* A refusal tells its number and the line or place, and leaves everything as it came. */
    machine.switches = 010000;
    guavachisel_emulate(memory, GUAVACHISEL_WORDS, &machine, 16, &outcome);
    if (outcome.refusal == GUAVACHISEL_REFUSED_VALUE)
        printf("emulate: register %" PRIu64 " has too wide a value\n", outcome.place);
}

static void evaluate_shipped(void)
{
    /* its first registers are the machine's, in the same order: PC is the second, RUN the third */
    guavachisel_registers registers = {{0, 0200, 1}};
    guavachisel_outcome outcome;
    uint8_t rows[GUAVACHISEL_ROWS];

    guavachisel_shipped(GUAVACHISEL_PLAIN, shipped, sizeof shipped, &outcome);
    printf("shipped: %" PRIu64 " bytes\n", outcome.answer);
    load();
    guavachisel_evaluate(shipped, (size_t)outcome.answer, memory, GUAVACHISEL_WORDS, &registers, 16, rows, GUAVACHISEL_ROWS, &outcome);
    printf("evaluate: %" PRIu64 " cycles, %s, LAC %05o", outcome.steps, ended(&outcome), registers.values[0]);
    print_rows(rows, outcome.rows);
}

static void evaluate_counter(void)
{
    /* the places that the description doesn't use hold 0 */
    guavachisel_registers registers = {{1}};
    guavachisel_outcome outcome;
    uint8_t rows[GUAVACHISEL_ROWS];

    guavachisel_read((const uint8_t *)"rows\t1\nreg\tRUN\t99\n", 18, &outcome);
    printf("read: refusal %" PRIu64 " in line %" PRIu64 "\n", outcome.refusal, outcome.place);
    guavachisel_evaluate((const uint8_t *)counter, strlen(counter), memory, GUAVACHISEL_WORDS, &registers, 100, rows, GUAVACHISEL_ROWS, &outcome);
    printf("evaluate: %" PRIu64 " cycles, %s, count %d", outcome.steps, ended(&outcome), registers.values[1]);
    print_rows(rows, outcome.rows);
}

static void read_constants(void)
{
    static const char expression[] = "M[#0017] Lss 15 And sorted @ '101";
    const size_t bytes = strlen(expression);
    guavachisel_constant constant;

    /* from place to place, and behind what was found; in a name with digits these would be found, too */
    for (uint64_t start = 0; start < bytes; start = constant.found ? constant.after : start + 1) {
        guavachisel_read_constant((const uint8_t *)expression, bytes, start, &constant);
        if (constant.found)
            printf("read_constant: %.*s at %" PRIu64 ", value %" PRIu64 ", width %" PRIu64 "\n", (int)(constant.after - start), expression + start, start, constant.value,
                   constant.width);
    }
}

/* KSF; JMP .-1; KRB; TLS; JMP .-4: what is typed is printed */
static void load_echo(void)
{
    memory[0200] = 06031;
    memory[0201] = 05200;
    memory[0202] = 06036;
    memory[0203] = 06046;
    memory[0204] = 05200;
}

static void echo(void)
{
    static const uint8_t typed[] = {'H', 'E', 'L', 'L', 'O'};
    guavachisel_machine machine = {.pc = 0200, .run = 1};
    guavachisel_devices devices = {0};
    guavachisel_outcome outcome;
    uint8_t paper[4];

    /* the paper has room for four: the run ends when it is full, and the last byte typed stands in the keyboard */
    load_echo();
    guavachisel_emulate_devices(memory, GUAVACHISEL_WORDS, &machine, &devices, 1000, typed, sizeof typed, paper, sizeof paper, &outcome);
    printf("emulate_devices: %" PRIu64 " steps, %s, %" PRIu64 " read, printed %.*s\n", outcome.steps, ended(&outcome), outcome.read, (int)outcome.printed, (const char *)paper);
}

static void echo_by_rows(void)
{
    static const uint8_t typed[] = {'H', 'E', 'L', 'L', 'O'};
    guavachisel_registers registers = {{0, 0200, 1}};
    guavachisel_outcome outcome;
    uint8_t rows[GUAVACHISEL_ROWS], paper[4];

    guavachisel_shipped(GUAVACHISEL_DEVICES, shipped, sizeof shipped, &outcome);
    load_echo();
    guavachisel_evaluate_devices(shipped, (size_t)outcome.answer, memory, GUAVACHISEL_WORDS, &registers, 1000, rows, GUAVACHISEL_ROWS, typed, sizeof typed, paper,
                                 sizeof paper, &outcome);
    printf("evaluate_devices: %" PRIu64 " cycles, %s, %" PRIu64 " read, printed %.*s", outcome.steps, ended(&outcome), outcome.read, (int)outcome.printed, (const char *)paper);
    print_rows(rows, outcome.rows);
}

int main(void)
{
    if (guavachisel_version() != GUAVACHISEL_VERSION) {
        fprintf(stderr, "compiled with another version's header\n");
        return 1;
    }
    emulate();
    evaluate_shipped();
    evaluate_counter();
    read_constants();
    echo();
    echo_by_rows();
    return 0;
}
