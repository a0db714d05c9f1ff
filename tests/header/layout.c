/*
 * The layout of every struct of the header, and the value of every constant, as the proved functions have them. It only has to compile, as C and as C++.
 */
#include "guavachisel.h"

#define SAME(name, a, b) typedef char name[(a) == (b) ? 1 : -1]

#define AT(type, field, place, size)                                                                                                                             \
    SAME(type##_##field##_at, offsetof(type, field), (place) * (size));                                                                                          \
    SAME(type##_##field##_size, sizeof(((type *)0)->field), size)

SAME(version, GUAVACHISEL_VERSION, 3);
SAME(words, GUAVACHISEL_WORDS, 4096);
SAME(registers, GUAVACHISEL_REGISTERS, 32);
SAME(rows, GUAVACHISEL_ROWS, 128);
SAME(budget, GUAVACHISEL_BUDGET, 1000000);
SAME(text_bytes, GUAVACHISEL_TEXT_BYTES, 16384);

SAME(machine_size, sizeof(guavachisel_machine), 12);
AT(guavachisel_machine, lac, 0, 2);
AT(guavachisel_machine, pc, 1, 2);
AT(guavachisel_machine, run, 2, 2);
AT(guavachisel_machine, interrupt_enable, 3, 2);
AT(guavachisel_machine, interrupt_request, 4, 2);
AT(guavachisel_machine, switches, 5, 2);

SAME(devices_size, sizeof(guavachisel_devices), 10);
AT(guavachisel_devices, key_byte, 0, 2);
AT(guavachisel_devices, keyboard_flag, 1, 2);
AT(guavachisel_devices, printer_flag, 2, 2);
AT(guavachisel_devices, print_byte, 3, 2);
AT(guavachisel_devices, print_mark, 4, 2);

SAME(registers_size, sizeof(guavachisel_registers), 64);
AT(guavachisel_registers, values, 0, 64);

SAME(outcome_size, sizeof(guavachisel_outcome), 72);
AT(guavachisel_outcome, refusal, 0, 8);
AT(guavachisel_outcome, place, 1, 8);
AT(guavachisel_outcome, steps, 2, 8);
AT(guavachisel_outcome, reason, 3, 8);
AT(guavachisel_outcome, rows, 4, 8);
AT(guavachisel_outcome, read, 5, 8);
AT(guavachisel_outcome, printed, 6, 8);
AT(guavachisel_outcome, answer, 7, 8);
AT(guavachisel_outcome, sum, 8, 8);

SAME(constant_size, sizeof(guavachisel_constant), 40);
AT(guavachisel_constant, found, 0, 8);
AT(guavachisel_constant, value, 1, 8);
AT(guavachisel_constant, matter, 2, 8);
AT(guavachisel_constant, width, 3, 8);
AT(guavachisel_constant, after, 4, 8);

SAME(halted, GUAVACHISEL_HALTED, 1);
SAME(spent, GUAVACHISEL_SPENT, 2);
SAME(paper, GUAVACHISEL_PAPER, 3);

SAME(refused_size, GUAVACHISEL_REFUSED_SIZE, 1);
SAME(refused_header, GUAVACHISEL_REFUSED_HEADER, 2);
SAME(refused_line, GUAVACHISEL_REFUSED_LINE, 3);
SAME(refused_register, GUAVACHISEL_REFUSED_REGISTER, 4);
SAME(refused_expression, GUAVACHISEL_REFUSED_EXPRESSION, 5);
SAME(refused_label, GUAVACHISEL_REFUSED_LABEL, 6);
SAME(refused_limit, GUAVACHISEL_REFUSED_LIMIT, 7);
SAME(refused_run, GUAVACHISEL_REFUSED_RUN, 8);
SAME(refused_memory, GUAVACHISEL_REFUSED_MEMORY, 11);
SAME(refused_word, GUAVACHISEL_REFUSED_WORD, 12);
SAME(refused_value, GUAVACHISEL_REFUSED_VALUE, 13);
SAME(refused_budget, GUAVACHISEL_REFUSED_BUDGET, 14);
SAME(refused_row_list, GUAVACHISEL_REFUSED_ROW_LIST, 15);

SAME(plain, GUAVACHISEL_PLAIN, 0);
SAME(devices, GUAVACHISEL_DEVICES, 1);
