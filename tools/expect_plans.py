#!/usr/bin/env python3
"""Makes the plans of the program `plans` and what document 01 answers to each, worked out from the paper alone.

    tools/expect_plans.py

writes crates/plans/data/*.plan, crates/plans/args and crates/plans/stdout. The edits are those of expect_calls.py.
"""
import os
import struct

from expect_calls import call

ROOM = 1_700
LENGTHS = {1: 13, 2: 8, 3: 17}
SHAPES = {1: ">BIII", 2: ">II", 3: ">HBHIII"}
EDITS = {1: 1, 2: 2, 3: 4}


def field(tag, *numbers):
    value = struct.pack(SHAPES[tag], *numbers)
    return bytes([tag]) + struct.pack(">H", len(value)) + value


def read(octets):
    """Document 01's number, the place, and the desk."""
    d, at = None, 0
    while at < len(octets):
        left = octets[at:]
        if len(left) < 3:
            return 1, at, None
        tag, length = left[0], left[1] * 256 + left[2]
        if tag not in LENGTHS:
            return 2, at, None
        if length != LENGTHS[tag]:
            return 3, at, None
        if len(left) < 3 + length:
            return 1, at, None
        (number, _), d = call(d, EDITS[tag], struct.unpack(SHAPES[tag], left[3 : 3 + length]))
        if number:
            return number, at, None
        at += 3 + length
    return (0, 0, d) if d is not None else (4, 0, None)


def write(d, room):
    """Document 01's number, the count, and the room after it."""
    if d is None:
        return 4, 0, room
    out = field(1, *d["port"])
    out += b"".join(field(2, *s) for s in sorted(d["slots"]))
    out += b"".join(field(3, *j) for j in sorted(d["streams"]))
    if len(room) < len(out):
        return 11, 0, room
    return 0, len(out), out + room[len(out) :]


PORT = field(1, 2, 100_000, 1_000, 500)
SLOTS = [field(2, 10_000, 14_000), field(2, 30_000, 32_500), field(2, 60_000, 68_500)]
STREAMS = [field(3, 1, 6, 117, 200_000, 0, 50_000), field(3, 2, 3, 242, 400_000, 0, 40_000)]
F = PORT + b"".join(SLOTS + STREAMS)
# 32 slots and 64 streams: 1,648 octets, in the writer's order
FULL = field(1, 5, 100_000, 1, 0)
FULL += b"".join(field(2, 3_000 * n, 3_000 * n + 1_000 + n) for n in range(32))
FULL += b"".join(field(3, 1_000 * n, n % 8, 64 + n, 10_000 + n, n, 10**8 - n) for n in range(64))


def plans():
    yield "empty", b""
    yield "lone_01", b"\x01"
    yield "f", F
    yield "f_mixed", PORT + STREAMS[1] + SLOTS[2] + SLOTS[0] + STREAMS[0] + SLOTS[1]
    yield "port_only", PORT
    yield "ends", field(1, 1, 1_000, 10**7, 10**7) + field(3, 65_535, 7, 1_522, 10**8, 10**8, 10**8)
    yield "least", field(1, 1, 1_000, 1, 0) + field(2, 0, 1) + field(3, 0, 0, 64, 10_000, 0, 1)
    yield "full", FULL
    # each refusal, behind some fields
    for n in (1, 2, 3, 10):
        yield f"cut_{n}_of_slot", F + SLOTS[0][:n]
    yield "cut_by_one", F[:-1]
    yield "cut_in_port", PORT[:15]
    yield "tag_0", F + b"\x00\x00\x00"
    yield "tag_4", F + b"\x04\x00\x08" + bytes(8)
    yield "tag_255", b"\xff\xff\xff"
    yield "length_16_of_stream", PORT + b"\x03\x00\x10" + bytes(17)
    yield "length_high_octet", PORT + b"\x02\x01\x08" + bytes(8)
    yield "length_of_port_12", b"\x01\x00\x0c" + bytes(13)
    yield "wrong_length_and_cut", PORT + b"\x02\x00\x09"
    yield "slot_first", SLOTS[0] + PORT
    yield "stream_first", STREAMS[0]
    yield "port_twice", F + PORT
    yield "port_out_of_range_first", field(1, 6, 100_000, 1_000, 500)
    yield "guard_0", field(1, 2, 100_000, 0, 500)
    yield "slot_over_cycle", PORT + field(2, 10, 100_001)
    yield "slot_empty", PORT + SLOTS[0] + field(2, 20_000, 20_000)
    yield "octets_63", PORT + SLOTS[0] + field(3, 1, 0, 63, 10_000, 0, 1)
    yield "octets_1523", PORT + field(3, 1, 0, 1_523, 10_000, 0, 1)
    yield "priority_8", PORT + field(3, 1, 8, 64, 10_000, 0, 1)
    yield "overlap", PORT + SLOTS[0] + field(2, 13_999, 14_001)
    yield "touching", PORT + SLOTS[0] + field(2, 14_000, 14_001)
    yield "slots_full", FULL + field(2, 0, 1)
    yield "streams_full", FULL + field(3, 1, 0, 64, 10_000, 0, 1)
    yield "out_of_range_before_full", FULL + field(3, 1, 8, 64, 10_000, 0, 1)
    yield "id_held", F + field(3, 2, 0, 64, 10_000, 0, 1)
    yield "no_free_cell", field(1, 2, 1_000, 100, 50) + field(2, 0, 850)
    yield "one_free_cell", field(1, 2, 1_000, 100, 50) + field(2, 0, 849)
    yield "first_refusal_decides", PORT + field(2, 5, 5) + b"\x09\x00\x00"
    # about 4,096 octets: full, then streams that come too many; and fields that never end a cut
    more = FULL + field(3, 7, 0, 64, 10_000, 0, 1) * 200
    for n in (4_095, 4_096, 4_097, 5_000):
        yield f"long_{n}", more[:n]
        yield f"zeros_{n}", F + bytes(n - len(F))
        yield f"ports_{n}", (PORT * 400)[:n]


def show(d, room):
    number, count, after = write(d, b"\xaa" * room)
    after += b"\xaa" * (ROOM - room)
    return f" {number} {count} {after[: count + 4].hex()}\n", count


def main():
    here = os.path.join(os.path.dirname(os.path.abspath(__file__)), "..", "crates", "plans")
    os.makedirs(os.path.join(here, "data"), exist_ok=True)
    names, lines = [], []
    for name, octets in plans():
        path = f"{name}.plan"
        with open(os.path.join(here, "data", path), "wb") as f:
            f.write(octets)
        number, place, d = read(octets)
        first, count = show(d, ROOM)
        lines.append(f"{path} {number} {place}{first}")
        if count:
            lines.append(" " + show(d, count - 1)[0])
        names.append(path)
    with open(os.path.join(here, "args"), "w") as f:
        f.write("".join(n + "\n" for n in names))
    with open(os.path.join(here, "stdout"), "w") as f:
        f.write("".join(lines))


if __name__ == "__main__":
    main()
