# The registers are told in the opposite order.
# areas: explain
# file: harness/independent/explain.rs
s/shipped.registers.iter().zip(values)/shipped.registers.iter().zip(values).rev()/
