# Turns a test file of plain/damage.py into the fixed lines that crate replay_audit reads.
#
#     python3 plain/damage.py --sample 60 --seed 1 --crafted --lengths | python3 record.py > ../crates/replay_audit/stdin
#     python3 record.py --pace 255 255 crowded audit 100
#
# With --pace it writes what is measured instead: a memory of N nodes and C cells of plain/crowded.py (cleared, crowded or deep), the
# verdict on it, and one line that has it audited (audit), or plainly read, by adding (pass) or by xor (wide), so many times.
#
# A line has 28 bytes: an operation (m a new memory, s a word or byte set, i the verdict on it, t the verdict with one change that is
# undone, l the verdict with other lent lengths, a what is measured), a slice (n, c or b), an index of eight hex digits, a value of
# sixteen, the verdict (1 a tree, 0 not), and a line feed. m has N as index and C as value; l has the words of nodes as index, and
# as value eight digits for the words of cells and eight for the bytes; a has the number of times as value, and for a slice what is
# measured (n audit, w wide, p pass).

import os
import sys

OPERATIONS = {"memory": "m", "set": "s", "is": "i", "try": "t", "lent": "l"}
MEASURED = {"audit": "n", "wide": "w", "pass": "p"}


# One fixed line.
def fixed(operation, which, index, value, verdict):
    return "%s%s%08x%016x%s\n" % (operation, which, index, value, verdict)


# The fixed line of one line of the test file.
def recorded(line):
    word, *fields = line.split()
    operation = OPERATIONS[word]
    if operation == "m":
        return fixed(operation, "-", int(fields[0]), int(fields[1]), "-")
    if operation == "i":
        return fixed(operation, "-", 0, 0, fields[0])
    if operation == "l":
        return fixed(operation, "-", int(fields[0]), (int(fields[1]) << 32) + int(fields[2]), fields[3])
    return fixed(operation, fields[0][0], int(fields[1]), int(fields[2]), fields[3] if operation == "t" else "-")


# The fixed lines of the lines of a test file.
def all_recorded(lines):
    return [recorded(line) for line in lines if line.strip() and not line.startswith("#")]


# The fixed lines of a memory of this kind, and of what is measured on it.
def paced(n, c, kind, what, times):
    sys.path.insert(0, os.path.join(os.path.dirname(os.path.abspath(__file__)), "plain"))
    from crowded import KINDS
    from damage import lines_of
    return all_recorded(lines_of(kind, KINDS[kind](n, c))) + [fixed("a", MEASURED[what], 0, times, "-")]


if sys.argv[1:2] == ["--pace"]:
    n, c, kind, what, times = sys.argv[2:]
    sys.stdout.writelines(paced(int(n), int(c), kind, what, int(times)))
else:
    sys.stdout.writelines(all_recorded(sys.stdin))
