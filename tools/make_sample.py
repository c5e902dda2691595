#!/usr/bin/env python3
"""Writes samples/two-heads.su, the unit file that ./run shows when it is given none.

Channel A: a smoke head on a counter capture whose clock is as slow as the window allows (56 ticks are 6/5 of the
nominal calibration pulse), with readings that rise and a short serial message.
Channel B: a head on an absolute log with an enhanced serial message, then edges lost in the middle of a frame, and
the frames after the next calibration pulse.
"""
import struct
import sys

FOUR = [0, 13, 7, 10, 14, 3, 9, 4, 1, 12, 6, 11, 15, 2, 8, 5]


def check4(nibbles):
    value = 5
    for nibble in nibbles:
        value = FOUR[value] ^ nibble
    return FOUR[value]


def six_entry(value):
    for _ in range(6):
        value = (value << 1) ^ (0x59 if value & 0x20 else 0)
        value &= 0x3F
    return value


def check6(groups):
    value = 21
    for group in groups:
        value = six_entry(value) ^ group
    return six_entry(value)


def bits(number, width):
    return [number >> i & 1 for i in reversed(range(width))]


def short_pairs(ident, data):
    nibbles = [ident, data >> 4, data & 15]
    low = bits(ident, 4) + bits(data, 8) + bits(check4(nibbles), 4)
    return [(1 if i == 0 else 0, b) for i, b in enumerate(low)]


def enhanced_pairs(ident, data):
    """A message with C = 1: a 4-bit id and 16 data bits."""
    high = [0, 1] + bits(ident, 4) + [0] + bits(data >> 12, 4) + [0]
    low = bits(data & 0xFFF, 12)
    stream = [b for pair in zip(low, high) for b in pair]
    groups = [int("".join(map(str, stream[i:i + 6])), 2) for i in range(0, 24, 6)]
    return list(zip([1] * 6, bits(check6(groups), 6))) + list(zip(high, low))


def frame(tick, pair, data):
    """The intervals of one frame: calibration pulse, status, data and check nibbles."""
    status = pair[0] * 8 + pair[1] * 4
    return [56 * tick] + [(12 + v) * tick for v in [status] + data + [check4(data)]]


def edges(start, intervals):
    times = [start]
    for interval in intervals:
        times.append(times[-1] + interval)
    return times


def counter_capture(times):
    out, wraps = b"", 0
    for time in times:
        while time >> 16 > wraps:
            out += b"SO\0\0"
            wraps += 1
        out += b"SC" + struct.pack(">H", time & 0xFFFF)
    return out


def absolute_log(marks):
    return b"".join(b"SL" + bytes(6) if time is None else b"SA" + struct.pack(">Q", time)[2:] for time in marks)


def main(path):
    smoke = [0x020, 0x021, 0x023, 0x028, 0x031, 0x045, 0x067, 0x0A2]
    a = []
    for i, pair in enumerate(short_pairs(3, 0x5A) + [(0, 0)]):
        a += frame(600, pair, [int(d, 16) for d in f"{smoke[min(i // 2, 7)]:03X}"])
    b = []
    for pair in enhanced_pairs(5, 0xA3C1):
        b += frame(100, pair, [0, 2, 0, 0xF, 0xD, 0xF])
    first = edges(2_000, b)
    cut = edges(first[-1], frame(100, (0, 0), [0, 2, 1, 0xF, 0xD, 0xE])[:4])[1:]
    again = edges(cut[-1] + 40_000, frame(100, (0, 0), [0, 2, 2, 0xF, 0xD, 0xD]) * 2)
    capture_a = counter_capture(edges(1_000, a))
    capture_b = absolute_log(first + cut + [None] + again)
    header = b"SU" + struct.pack(">IBI", 28_000, 3, len(capture_a)) + struct.pack(">IBI", 5_600, 6, len(capture_b))
    with open(path, "wb") as out:
        out.write(header + capture_a + capture_b)


if __name__ == "__main__":
    main(sys.argv[1] if len(sys.argv) > 1 else "samples/two-heads.su")
