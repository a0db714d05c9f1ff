# KRB ors the byte, then clears AC.
# areas: devices device-edges device-words
# file: harness/independent/emulate_devices.rs
/^            KRB => {/,/^            }/{
/kcc(/d
s/krs(machine, self);/krs(machine, self);\n                kcc(machine, self);/
}
