# Frame labels of both editions, written from document 02 (A10) alone: built from their fields, and read back.

UNKNOWN = 19
FIRST, SECOND = 1, 2

# How many bytes the frame of each edition has, behind the edition byte, two bytes of station and four of burst.
FRAME_BYTES = {FIRST: 1, SECOND: 2}


# The bytes of a label.
def build(edition, station, burst, frame):
    fields = ((station, 2), (burst, 4), (frame, FRAME_BYTES[edition]))
    return bytes([edition]) + b"".join(value.to_bytes(size, "big") for value, size in fields)


# What a reader that knows these editions answers: 0 with edition, station, burst and frame, or 19 with the edition byte.
def read(label, known=(FIRST, SECOND)):
    edition = label[0] if label else 0
    if edition not in known or len(label) != 7 + FRAME_BYTES[edition]:
        return UNKNOWN, edition
    return 0, (edition,) + tuple(int.from_bytes(part, "big") for part in (label[1:3], label[3:7], label[7:]))
