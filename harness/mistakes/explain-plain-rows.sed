# Explain shows the plain machine's rows of a run with devices.
# areas: explain
# file: harness/independent/explain.rs
s/let text = if question.with_devices { twin } else { shipped };/let text = shipped;/
