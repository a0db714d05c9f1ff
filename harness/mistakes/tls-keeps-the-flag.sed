# TLS leaves the printer flag.
# areas: devices device-edges device-words
# file: harness/independent/emulate_devices.rs
/^            TLS => {/,/^            }/{
/tcf(/d
}
