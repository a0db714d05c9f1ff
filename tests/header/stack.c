/*
 * Runs each entry in a thread that has little more stack than the header says the entry needs, below it a page that may not be touched, and writes what the entry
 * took. The text is the one that takes the reader deepest: the longest line, with brackets as deep as they go, and before each as many operators as a width allows,
 * so that every level of the grammar waits for the next. The exit status is 0, or 1 if an entry took more than the header says.
 */
#define _DEFAULT_SOURCE
#include <inttypes.h>
#include <pthread.h>
#include <stdio.h>
#include <string.h>
#include <sys/mman.h>

#include "guavachisel.h"

#define PAGE 4096
#define THREAD 16384 /* what a thread needs for itself */
#define PAINT 0xa5
#define LINE 200
#define BRACKETS 8
#define OPERATORS 15

static uint16_t memory[GUAVACHISEL_WORDS];
static uint8_t rows[GUAVACHISEL_ROWS], text[GUAVACHISEL_TEXT_BYTES];
static size_t bytes;
static guavachisel_outcome outcome;
static uintptr_t top;

static void emulate(void)
{
    guavachisel_machine machine = {0, 0, 1, 1, 1, 0};

    guavachisel_emulate(memory, GUAVACHISEL_WORDS, &machine, GUAVACHISEL_BUDGET, &outcome);
}

static uint8_t input[GUAVACHISEL_ROWS], output[GUAVACHISEL_ROWS];

static void emulate_devices(void)
{
    guavachisel_machine machine = {0, 0, 1, 1, 1, 0};
    guavachisel_devices devices = {0, 0, 0, 0, 1};

    memory[0] = 06046;
    memory[1] = 06036;
    memory[2] = 05000;
    guavachisel_emulate_devices(memory, GUAVACHISEL_WORDS, &machine, &devices, GUAVACHISEL_BUDGET, input, sizeof input, output, sizeof output, &outcome);
}

static void read_text(void)
{
    guavachisel_read(text, bytes, &outcome);
}

static uint8_t line[GUAVACHISEL_TEXT_BYTES];

/* Digits as long as a text may be: behind each mark, and a decimal's, which no letter ends. */
static void read_constant(void)
{
    static const uint8_t firsts[] = {'\'', '#', '1'};
    guavachisel_constant constant;
    size_t kind;

    memset(line, '1', sizeof line);
    for (kind = 0; kind < sizeof firsts; kind++) {
        line[0] = firsts[kind];
        guavachisel_read_constant(line, sizeof line, 0, &constant);
    }
    /* the longest of each kind that there is */
    guavachisel_read_constant((const uint8_t *)"'1111111111111111", 17, 0, &constant);
    guavachisel_read_constant((const uint8_t *)"#77777", 6, 0, &constant);
    guavachisel_read_constant((const uint8_t *)"32767", 5, 0, &constant);
}

static void evaluate(void)
{
    guavachisel_registers registers = {{0}};

    registers.values[2] = 1;
    guavachisel_evaluate(text, bytes, memory, GUAVACHISEL_WORDS, &registers, 1000, rows, GUAVACHISEL_ROWS, &outcome);
}

static void evaluate_devices(void)
{
    guavachisel_registers registers = {{0}};

    registers.values[2] = 1;
    guavachisel_evaluate_devices(text, bytes, memory, GUAVACHISEL_WORDS, &registers, 1000, rows, GUAVACHISEL_ROWS, input, sizeof input, output, sizeof output,
                                 &outcome);
}

static void shipped(void)
{
    guavachisel_shipped(GUAVACHISEL_DEVICES, text, sizeof text, &outcome);
    bytes = (size_t)outcome.answer;
}

static void version(void)
{
    outcome.answer = guavachisel_version();
}

/* A text whose fourth line is a row as long as a line may be, and takes the reader deepest. */
static void deepest(void)
{
    static const char head[] = "rows\t1\nreg\tRUN\t1\nreg\ta\t1\ngo\t", tail[] = "\tl\nat\tl\n";
    size_t condition = LINE - strlen("go\t\tl"), depth = 0, place, operators = 0;

    memcpy(text, head, strlen(head));
    for (place = 0; place < condition - 1;) {
        uint8_t *at = text + strlen(head) + place;
        size_t left = condition - 1 - place, open = BRACKETS - depth;
        if (open > 0 && (operators == OPERATORS || left < open + 2)) {
            *at = '(';
            place += 1;
            depth += 1;
            operators = 0;
        } else {
            memcpy(at, left >= 2 ? "a+" : " ", left >= 2 ? 2 : 1);
            place += left >= 2 ? 2 : 1;
            operators += 1;
        }
    }
    text[strlen(head) + place] = 'a';
    memcpy(text + strlen(head) + condition, tail, strlen(tail));
    bytes = strlen(head) + condition + strlen(tail);
}

static void *started(void *entry)
{
    char here;

    top = (uintptr_t)&here;
    (*(void (**)(void))entry)();
    return NULL;
}

/* Runs an entry; 1 if it took no more stack than it may. */
static int run(const char *name, void (*entry)(void), size_t most)
{
    size_t size = most + THREAD, place = PAGE, took;
    unsigned char *stack = mmap(NULL, PAGE + size, PROT_READ | PROT_WRITE, MAP_PRIVATE | MAP_ANONYMOUS, -1, 0);
    pthread_attr_t attributes;
    pthread_t thread;

    if (stack == MAP_FAILED || mprotect(stack, PAGE, PROT_NONE) != 0)
        return 0;
    memset(stack + PAGE, PAINT, size);
    if (pthread_attr_init(&attributes) != 0 || pthread_attr_setstack(&attributes, stack + PAGE, size) != 0 ||
        pthread_create(&thread, &attributes, started, &entry) != 0 || pthread_join(thread, NULL) != 0)
        return 0;
    while (stack[place] == PAINT)
        place++;
    took = top - (uintptr_t)(stack + place);
    munmap(stack, PAGE + size);
    printf("stack of guavachisel_%s: %zu of %zu bytes, refusal %" PRIu64 "\n", name, took, most, outcome.refusal);
    return took <= most;
}

int main(void)
{
    int good;

    deepest();
    good = run("read", read_text, GUAVACHISEL_STACK_READ);
    good &= run("evaluate", evaluate, GUAVACHISEL_STACK_EVALUATE);
    good &= run("evaluate_devices", evaluate_devices, GUAVACHISEL_STACK_EVALUATE_DEVICES);
    good &= run("shipped", shipped, GUAVACHISEL_STACK_SHIPPED);
    good &= run("evaluate", evaluate, GUAVACHISEL_STACK_EVALUATE);
    good &= run("evaluate_devices", evaluate_devices, GUAVACHISEL_STACK_EVALUATE_DEVICES);
    good &= run("emulate_devices", emulate_devices, GUAVACHISEL_STACK_EMULATE_DEVICES);
    good &= run("emulate", emulate, GUAVACHISEL_STACK_EMULATE);
    good &= run("read_constant", read_constant, GUAVACHISEL_STACK_READ_CONSTANT);
    good &= run("version", version, GUAVACHISEL_STACK_VERSION);
    return good ? 0 : 1;
}
