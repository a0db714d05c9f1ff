/*
 * Guavachisel's C interface, for C99 and C++11 or later on x86-64 Linux.
 *
 * Of every entry holds:
 * - A pointer is valid for the length that stands behind it, or for the struct that it points to, and no two pointers of a call overlap (in C: restrict).
 *   NULL may stand only where the length is 0.
 * - It takes whatever else it is handed, always returns, and writes exactly one outcome. After a refusal everything but the outcome is as it came.
 *   guavachisel_read_constant and guavachisel_version refuse nothing and write no outcome; the former writes exactly one constant instead.
 * - It keeps nothing between calls: threads may call it at the same time, each on its own data.
 * - It needs no more stack than GUAVACHISEL_STACK_.. says of it below, in bytes: by measurement with a margin, not by proof.
 */
#ifndef GUAVACHISEL_H
#define GUAVACHISEL_H

#include <stddef.h>
#include <stdint.h>

#ifdef __cplusplus
extern "C" {
#define GUAVACHISEL_RESTRICT __restrict__
#else
#define GUAVACHISEL_RESTRICT restrict
#endif

/* Counts up with every change that a caller has to be compiled anew for; guavachisel_version() says the library's. */
#define GUAVACHISEL_VERSION 3

#define GUAVACHISEL_WORDS 4096       /* words of memory */
#define GUAVACHISEL_REGISTERS 32     /* places for a description's registers */
#define GUAVACHISEL_ROWS 128         /* places that a row list has at least */
#define GUAVACHISEL_BUDGET 1000000   /* the largest budget */
#define GUAVACHISEL_TEXT_BYTES 16384 /* the longest text of a description */

#define GUAVACHISEL_STACK_EMULATE 4096
#define GUAVACHISEL_STACK_EMULATE_DEVICES 4096
#define GUAVACHISEL_STACK_READ 163840
#define GUAVACHISEL_STACK_READ_CONSTANT 4096
#define GUAVACHISEL_STACK_EVALUATE 180224
#define GUAVACHISEL_STACK_EVALUATE_DEVICES 180224
#define GUAVACHISEL_STACK_SHIPPED 4096
#define GUAVACHISEL_STACK_VERSION 4096

/* The registers of the PDP-8: LAC has 13 bits, PC and SWITCHES 12, the others one. */
typedef struct {
    uint16_t lac;
    uint16_t pc;
    uint16_t run;
    uint16_t interrupt_enable;
    uint16_t interrupt_request;
    uint16_t switches;
} guavachisel_machine;

/*
 * The registers of keyboard and teleprinter: the bytes have 8 bits, the others one. In a description they are KEY.BYTE, KEYBOARD.FLAG, PRINTER.FLAG, PRINT.BYTE
 * and PRINT.MARK. A print mark that stands raises the printer's flag at the start of the next step; it prints nothing.
 */
typedef struct {
    uint16_t key_byte;
    uint16_t keyboard_flag;
    uint16_t printer_flag;
    uint16_t print_byte;
    uint16_t print_mark;
} guavachisel_devices;

/* The registers of a description, in the order of its lines; 0 where it has none. */
typedef struct {
    uint16_t values[GUAVACHISEL_REGISTERS];
} guavachisel_registers;

/* What every entry reports that can refuse, and guavachisel_shipped. What an entry doesn't speak of is 0. */
typedef struct {
    uint64_t refusal; /* 0, or one of guavachisel_refusal */
    uint64_t place;   /* of a refusal: the text's line, or the lowest offending place of memory or registers, from 0 */
    uint64_t steps;   /* steps or cycles done; 0 after a refusal */
    uint64_t reason;  /* why the run ended: one of guavachisel_reason; 0 after a refusal */
    uint64_t rows;    /* rows listed */
    uint64_t read;    /* with devices: the bytes of the input that arrived; those behind them are unread */
    uint64_t printed; /* with devices: the bytes printed, at the front of the output */
    uint64_t answer;  /* the length of a shipped description */
    uint64_t sum;     /* no entry speaks of it */
} guavachisel_outcome;

/* What guavachisel_read_constant finds; all 0 where no constant is there. */
typedef struct {
    uint64_t found;  /* 1 if a constant is there */
    uint64_t value;  /* at most 65,535 */
    uint64_t matter; /* a 1 bit for each place that matters: all of the width's */
    uint64_t width;  /* in bits, 1 to 16 */
    uint64_t after;  /* the place after it, from 0 */
} guavachisel_constant;

/* Why a run ended. */
enum guavachisel_reason {
    GUAVACHISEL_HALTED = 1, /* RUN is 0 */
    GUAVACHISEL_SPENT = 2,  /* the budget is done */
    GUAVACHISEL_PAPER = 3   /* with devices: the output has no place left, also where the budget is done, too */
};

/* What is refused. A text is tried first, then the state, by rising numbers. */
enum guavachisel_refusal {
    GUAVACHISEL_REFUSED_SIZE = 1,       /* text over 16,384 bytes; its line is 0 */
    GUAVACHISEL_REFUSED_HEADER = 2,     /* the first line isn't the header */
    GUAVACHISEL_REFUSED_LINE = 3,       /* the form of a line */
    GUAVACHISEL_REFUSED_REGISTER = 4,   /* a register's name or width */
    GUAVACHISEL_REFUSED_EXPRESSION = 5, /* an expression or a destination */
    GUAVACHISEL_REFUSED_LABEL = 6,      /* a label, or a `go` without its label lower down */
    GUAVACHISEL_REFUSED_LIMIT = 7,      /* one register, row, label or piece too many */
    GUAVACHISEL_REFUSED_RUN = 8,        /* no register RUN of width 1; its line is the one after the last */
    GUAVACHISEL_REFUSED_MEMORY = 11,    /* memory isn't 4,096 words; its place is 0 */
    GUAVACHISEL_REFUSED_WORD = 12,      /* a word above 4,095 */
    GUAVACHISEL_REFUSED_VALUE = 13,     /* a register's value wider than the register, or not 0 where there is none */
    GUAVACHISEL_REFUSED_BUDGET = 14,    /* budget above 1,000,000; its place is 0 */
    GUAVACHISEL_REFUSED_ROW_LIST = 15   /* row list shorter than 128 places; its place is 0 */
};

/* The shipped descriptions. */
enum guavachisel_description {
    GUAVACHISEL_PLAIN = 0,  /* the PDP-8 of guavachisel_emulate; its first six registers are those of guavachisel_machine, in that order */
    GUAVACHISEL_DEVICES = 1 /* the PDP-8 of guavachisel_emulate_devices; behind the six stand those of guavachisel_devices, in that order */
};

/* Runs the PDP-8 for at most `budget` steps. Refusals 11 to 14. Speaks of refusal, place, steps and reason. */
void guavachisel_emulate(uint16_t *GUAVACHISEL_RESTRICT memory, size_t words, guavachisel_machine *GUAVACHISEL_RESTRICT machine, uint64_t budget,
                         guavachisel_outcome *GUAVACHISEL_RESTRICT outcome);

/*
 * The same with keyboard and teleprinter. The next byte of `input` arrives at the start of a step that finds the keyboard's flag 0; what is printed goes to the first
 * places of `output`, the places behind it stay as they came, and with none left of its `room` no step begins. Two calls, the second from what the first left, on the input
 * behind `read` and into the output behind `printed`, are one run. Refusals 11 to 14; 13 looks at the six registers of `machine`, then at the five of `devices`. Speaks of refusal,
 * place, steps, reason, read and printed.
 */
void guavachisel_emulate_devices(uint16_t *GUAVACHISEL_RESTRICT memory, size_t words, guavachisel_machine *GUAVACHISEL_RESTRICT machine,
                                 guavachisel_devices *GUAVACHISEL_RESTRICT devices, uint64_t budget, const uint8_t *GUAVACHISEL_RESTRICT input, size_t bytes,
                                 uint8_t *GUAVACHISEL_RESTRICT output, size_t room, guavachisel_outcome *GUAVACHISEL_RESTRICT outcome);

/* Reads a description. Refusals 1 to 8. Speaks of refusal and place, which is the line, from 1. */
void guavachisel_read(const uint8_t *GUAVACHISEL_RESTRICT text, size_t bytes, guavachisel_outcome *GUAVACHISEL_RESTRICT outcome);

/*
 * Reads the constant that starts at place `start` of `line`, from 0: `'` with 1 to 16 binary digits, `#` with 1 to 5 octal digits, or a decimal from 0 to 32767 without
 * leading zeros. It looks only forward from there. Digits behind a mark are read as far as they go; a decimal is the whole run of letters, digits and dots. Where that
 * is outside the rules, no shorter constant is taken for it: none is there, as at or past the line's end. The line may hold any bytes and have any length.
 */
void guavachisel_read_constant(const uint8_t *GUAVACHISEL_RESTRICT line, size_t bytes, uint64_t start, guavachisel_constant *GUAVACHISEL_RESTRICT constant);

/*
 * Runs a description's rows for at most `budget` cycles, and lists the rows that acted in the last cycle, rising, in the first places of `rows`; later places
 * stay. Refusals 1 to 8, then 11 to 15; 13 looks at all places of `registers`, also behind the description's last one, where only 0 passes. Speaks of refusal, place,
 * steps, reason and rows.
 */
void guavachisel_evaluate(const uint8_t *GUAVACHISEL_RESTRICT text, size_t bytes, uint16_t *GUAVACHISEL_RESTRICT memory, size_t words,
                          guavachisel_registers *GUAVACHISEL_RESTRICT registers, uint64_t budget, uint8_t *GUAVACHISEL_RESTRICT rows, size_t places,
                          guavachisel_outcome *GUAVACHISEL_RESTRICT outcome);

/*
 * The same with keyboard and teleprinter, where the description has registers KEY.BYTE and PRINT.BYTE of 8 bits and KEYBOARD.FLAG, PRINTER.FLAG and PRINT.MARK of one, in
 * whatever places: they are filled before a cycle, and a byte that is newly marked is taken after it. A description that lacks one of the five in name or width runs as by
 * guavachisel_evaluate: the input stays unread, the output as it came, and `room` counts for nothing. Speaks of read and printed, too.
 */
void guavachisel_evaluate_devices(const uint8_t *GUAVACHISEL_RESTRICT text, size_t bytes, uint16_t *GUAVACHISEL_RESTRICT memory, size_t words,
                                  guavachisel_registers *GUAVACHISEL_RESTRICT registers, uint64_t budget, uint8_t *GUAVACHISEL_RESTRICT rows, size_t places,
                                  const uint8_t *GUAVACHISEL_RESTRICT input, size_t input_bytes, uint8_t *GUAVACHISEL_RESTRICT output, size_t room,
                                  guavachisel_outcome *GUAVACHISEL_RESTRICT outcome);

/*
 * Writes the shipped description `which` to the first bytes of `text`, if it fits into the `room` bytes there; else, and behind it, they stay as they came. Speaks
 * of answer: the description's length in bytes, also where it doesn't fit; 0 for a number that isn't one of guavachisel_description.
 */
void guavachisel_shipped(uint64_t which, uint8_t *GUAVACHISEL_RESTRICT text, size_t room, guavachisel_outcome *GUAVACHISEL_RESTRICT outcome);

/* The GUAVACHISEL_VERSION that the library was made for, to be compared with the header's. */
uint64_t guavachisel_version(void);

#undef GUAVACHISEL_RESTRICT

#ifdef __cplusplus
}
#endif

#endif
