# The rival: values in between stand among the registers from the 17th on.
# areas: register-sets
# file: bench/rival/compile.rs
s/TEMPORARIES: u16 = REGISTERS as u16/TEMPORARIES: u16 = 16/
