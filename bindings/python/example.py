"""Reads a limit, changes it, and reads it again: python3 example.py"""

import oer

# SEQUENCE {limit INTEGER (0..MAX), alarm BOOLEAN DEFAULT TRUE}
table = oer.Table([2, 1, 0, 0, 0, 0, 1, 0, 0, 0, 0, 0, 10, 0, 0, 0, 0, 2], [0, 0, 0, 1, 2, 1])
before = bytes.fromhex("00 01 FF")
print(before.hex(" "), "limit", table.setting(2, before, [0]))
after = table.edit(2, before, [0], [(2, 256)])
print(after.hex(" "), "limit", table.setting(2, after, [0]), "alarm", table.setting(2, after, [1]))
try:
    table.setting(2, after[:2], [0])
except oer.Refused as refusal:
    print(after[:2].hex(" "), "is refused:", refusal)
