# An interrupt leaves INTERRUPT.ENABLE at 1.
# areas: emulate
# file: harness/independent/machine.rs
/^fn interrupt_test/,/^}/s/machine.interrupt_enable = 0;//
