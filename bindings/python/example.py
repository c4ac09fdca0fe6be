"""Reduces the trace of a pulse, prints the kept samples, writes their record and reads it back."""

from array import array

import kovrelna

ticks = array("I", [0, 1, 2, 3, 4, 5, 6, 7, 8, 10, 12, 16, 20, 24])
values = array("h", [-1, 0, 1, 0, 40, 81, 119, 160, 131, 80, 50, 20, 9, 4])
tolerance = kovrelna.Counts(2.5)

kept = kovrelna.walk(ticks, values, tolerance)
print(f"walk keeps {len(kept)} of {len(ticks)} samples:", *kept)
print("the fewest are", len(kovrelna.minimum(ticks, values, tolerance)))

record = kovrelna.write(ticks, values, kept, tolerance)
print(f"record of {len(record)} bytes:", record.hex(" "))

content = kovrelna.read(record)
print("tolerance", content.tolerance)
for tick, value in zip(content.ticks, content.values):
    print("tick", tick, "value", value)

try:
    kovrelna.read(record[:-1])
except kovrelna.Refusal as refusal:
    print(refusal)
