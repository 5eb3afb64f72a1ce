#!/usr/bin/env python3
"""Makes the inputs that bedwatch and linewatch are run on, and what they must print.

Writes crates/bedwatch/stdin, with good lines, lines damaged in every way and
more readings than its window holds, and crates/linewatch/stdin, with sentences
of several kinds from several talkers and damaged lines among them; beside each
its stdout, by the rules as they are written here, apart from the programs. In
bedwatch's each refusal comes at every column that it can have. Every run writes
the same bytes. Run it anywhere: it takes no arguments.
"""

import random
import re
from collections import Counter
from pathlib import Path

LONGEST = 80
GOOD = b"$SDDPT,4.1,-3.6*7A"
NUMBER = re.compile(rb"[0-9]{1,4}(\.[0-9]{1,2})?")
ADDRESS_BYTES = b"ABCDEFGHIJKLMNOPQRSTUVWXYZ0123456789"
HEX_DIGITS = b"0123456789ABCDEF"
LIMITS = (46, 55, 61, 70, 84, 98)
ACCURACY, SPAN, SIZE = 1, 9, 256
FIELD_BYTES = bytes(b for b in range(0x20, 0x7F) if b not in b"$!*")


# ---- The rules ----


def wrong_column(line):
    """The first wrong column of a sentence's shape, or None."""
    star = line.find(b"*", 6)
    end = len(line) if star == -1 else star
    for at, byte in enumerate(line[:LONGEST]):
        if at == 0:
            right = byte == ord("$")
        elif at < 6:
            right = byte in ADDRESS_BYTES
        elif at < end:
            right = byte == ord(",") if at == 6 else byte in FIELD_BYTES
        elif at == end:
            right = True
        else:
            right = at <= end + 2 and byte in HEX_DIGITS
        if not right:
            return at + 1
    if len(line) > LONGEST:
        return LONGEST + 1
    return None if star != -1 and len(line) == star + 3 else len(line) + 1


def clearance_column(line, star):
    """The column that keeps the clearance from being read, or None."""
    fields, column = [], 8
    for text in line[7:star].split(b",") if star > 6 else []:
        fields.append((text, column))
        column += len(text) + 1
    fields += [(None, star + 1)] * (2 - len(fields))
    (depth, depth_at), (offset, offset_at) = fields[:2]
    if depth is None or not NUMBER.fullmatch(depth):
        return depth_at
    if offset is None or offset[:1] != b"-" or not NUMBER.fullmatch(offset[1:]):
        return offset_at
    return fields[3][1] if len(fields) > 3 else None


def sentence_refusal(line):
    """The number and the column of a line's refusal, or None for a sentence."""
    column = wrong_column(line)
    if column is not None:
        return 12, column
    star = line.index(b"*")
    return (13, star + 2) if line[star + 1 :] != digits(line[1:star]) else None


def refusal(line):
    """The number and the column of a line's refusal, or None for a reading."""
    refused = sentence_refusal(line)
    if refused is not None:
        return refused
    if line[3:6] != b"DPT":
        return 14, 2
    column = clearance_column(line, line.index(b"*"))
    return None if column is None else (15, column)


def kinds(addresses):
    """What linewatch says at the end: the kinds that make an eighth of the latest 63 addresses."""
    window = addresses[-63:]
    threshold = max(1, (len(window) + 7) // 8)
    # A Counter keeps the order of first places.
    counts = Counter(address[2:] for address in window)
    return [b"kind %s %d %d\n" % (kind, n, n) for kind, n in counts.items() if n >= threshold]


def centimetres(number):
    whole, _, part = number.partition(b".")
    return 100 * int(whole) + int(part.ljust(2, b"0"))


def key(line):
    """The sounder of a reading, and the band of its clearance."""
    depth, offset = line[7 : line.index(b"*")].split(b",")[:2]
    clearance = centimetres(depth) - centimetres(offset[1:])
    return line[1:3], sum(clearance >= limit for limit in LIMITS)


def tally(keys, rows):
    """How often each key is counted in so many rows, and how often all counts fell."""
    counts, lost = {}, 0
    for one in keys:
        if one in counts or len(counts) < rows:
            counts[one] = counts.get(one, 0) + 1
        else:
            counts = {other: n - 1 for other, n in counts.items() if n > 1}
            lost += 1
    return counts, lost


def cover(came, window):
    """The blocks that answer for the latest `window` of the keys that came: their first places, sizes and rows."""
    top = ACCURACY + 3
    scale = next(k for k in range(top, SPAN + 1) if window <= 1 << k)
    smallest = 1 << scale - top
    at, end = -(-(came - window) // smallest) * smallest, came // smallest * smallest
    while at < end:
        level = max(j for j in range(top + 1) if at % (smallest << j) == 0 and at + (smallest << j) <= end)
        yield at, smallest << level, (top + 1 << level) - 1
        at += smallest << level


def verdicts(keys):
    """What bedwatch says at the end: how many readings its window holds, and the verdicts from SD's."""
    window = min(len(keys), SIZE)
    blocks = list(cover(len(keys), window))
    tallies = [tally(keys[at : at + size], rows) for at, size, rows in blocks]
    unknown = sum(lost for _, lost in tallies) + window - sum(size for _, size, _ in blocks)
    yield b"readings %d\n" % window
    floor = ceiling = 0
    for band in range(len(LIMITS)):
        count = sum(counts.get((b"SD", band), 0) for counts, _ in tallies)
        floor, ceiling = floor + count, ceiling + count + unknown
        held, clear = window >= 1 and 4 * floor >= window, 4 * ceiling < window
        word = b"held" if held else b"clear" if clear else b"unsure"
        yield b"class %d %s %d %d\n" % (band + 1, word, floor, ceiling)


def digits(part):
    """The checksum of a part, as it is written."""
    total = 0
    for byte in part:
        total ^= byte
    return b"%02X" % total


def lines_of(data):
    """The texts of the lines: a CR before an LF belongs to the end, and bytes after the last LF are a line too."""
    *ended, last = data.split(b"\n")
    texts = [line[:-1] if line.endswith(b"\r") else line for line in ended]
    return texts + [last] if last else texts


# ---- The lines ----


def sentence(part):
    return b"$" + part + b"*" + digits(part)


def filled(front, length):
    """A sentence of this length: `front` and filling bytes."""
    count = length - len(front) - 4
    filling = bytes(FIELD_BYTES[7 * i % len(FIELD_BYTES)] for i in range(count))
    return sentence(front + filling.replace(b",", b"."))


def good_lines():
    depths = [b"4.1", b"0", b"9999.99", b"12.5", b"007", b"1234"]
    offsets = [b"-3.6", b"-0", b"-9999.99", b"-0.05", b"-0000.0"]
    for depth in depths:
        for offset in offsets:
            yield sentence(b"SDDPT," + depth + b"," + offset)
            yield sentence(b"7ZDPT," + depth + b"," + offset + b",100.0")
    yield sentence(b"DPDPT,1,-1,")
    yield filled(b"SDDPT,4.1,-3.6,", 80)


def damaged_bytes():
    """A sentence of full length with one byte replaced, and a short one with each byte in each kind of place."""
    full = filled(b"SDDPT,4.1,-3.6,", 80)
    for at in range(80):
        for byte in b"$!*,\0\r\xff aG":
            yield full[:at] + bytes([byte]) + full[at + 1 :]
    for at in (0, 1, 6, 7, 16):
        for byte in range(256):
            if byte != 10:
                yield GOOD[:at] + bytes([byte]) + GOOD[at + 1 :]


def cut_lines():
    full = filled(b"SDDPT,4.1,-3.6,", 80)
    for length in range(80):
        yield full[:length]
    for length in range(len(GOOD)):
        yield GOOD[:length]
        yield GOOD[:length] + GOOD[length + 1 :]
        yield GOOD[:length] + b"7" + GOOD[length:]


def wrong_sums():
    for length in range(9, 81):
        right = sentence(b"SDDPT") if length == 9 else filled(b"SDDPT,", length)
        high, low = right[-2], right[-1]
        other = {byte: HEX_DIGITS[(HEX_DIGITS.index(byte) + 1) % 16] for byte in HEX_DIGITS}
        yield right
        yield right[:-2] + bytes([other[high], low])
        yield right[:-2] + bytes([high, other[low]])
        yield right[:-2] + bytes([low, high])
        yield right[:-2] + right[-2:].lower()


def wrong_addresses():
    for address in (b"SDDBT", b"DPTSD", b"SDDPU", b"SDDQT", b"SDEPT", b"00000", b"ZZZZZ"):
        yield sentence(address)
        yield sentence(address + b",4.1,-3.6")
        yield filled(address + b",", 80)


def wrong_fields():
    no_numbers = [b"", b".", b".5", b"5.", b"12345", b"1.234", b"-1", b"+1", b"1x", b" 1", b"1 ", b"1..2", b"one"]
    numbers = [b"1", b"12", b"123", b"1234", b"123.4", b"1234.5", b"1234.56"]
    for text in no_numbers:
        yield sentence(b"SDDPT," + text)
        yield sentence(b"SDDPT," + text + b",-3.6")
        yield sentence(b"SDDPT," + text + b",3.6,,")
        for depth in numbers:
            yield sentence(b"SDDPT," + depth + b",-" + text)
            yield sentence(b"SDDPT," + depth + b"," + text + b",,")
    for depth in numbers:
        yield sentence(b"SDDPT," + depth)
        yield sentence(b"SDDPT," + depth + b",3.6")
    for length in range(65):
        yield sentence(b"SDDPT,4,-3," + b"x" * length + b",")
        yield sentence(b"SDDPT,4,-3," + b"x" * length)
    yield sentence(b"SDDPT,4,-3,100,x,,y")


def long_lines():
    full = filled(b"SDDPT,4.1,-3.6,", 80)
    for length in (80, 81, 82, 83, 84, 200):
        line = filled(b"SDDPT,4.1,-3.6,", length)
        yield line
        yield line + b"\r"
        yield full + line[80:]
        yield full + b"\r" * (length - 80)
        yield b"*" * length
    yield filled(b"SDDPT,4.1,-3.6,", 100_000)


def strange_lines():
    yield from (b"", b"\0", b"\0" * 82, b"\xff\xfe", b"\xc3", b"\xed\xa0\x80", b"\xf0\x9f\x9a", "$SDDPT,4·1".encode())
    yield from (b"\r", b"\r\r", b"\r" + GOOD, GOOD + b"\r", GOOD + b"\r\r", GOOD[:9] + b"\r" + GOOD[9:])
    yield from (b" " + GOOD, GOOD + b" ", GOOD + GOOD, GOOD.lower(), GOOD[1:], b"!" + GOOD[1:], b"$" + GOOD)


def changed_lines():
    """Sentences with one to three bytes changed, put in or left out, about half of them with the right checksum."""
    chance = random.Random(1)

    def pick(choices):
        return choices[int(chance.random() * len(choices))]

    for _ in range(1000):
        part = pick([b"SDDPT,4.1,-3.6", b"SDDPT,4.1,-3.6,100", b"GPDPT,1234.56,-0.5,,", b"SDDPT,,"])
        for _ in range(pick([1, 2, 3])):
            at = pick(range(len(part)))
            part = part[:at] + pick([b"", b",", b"7", b"-", b".", b"D"]) + part[at + pick([0, 1]) :]
        line = sentence(part)
        yield pick([line, line[:-1] + b"0"])


def many_readings():
    """More readings than the window holds, of two sounders, and shallower from day to day."""
    chance = random.Random(3)
    for number in range(700):
        depth = 480 - number // 10 + int(chance.random() * 20)
        yield sentence(b"%s,%d.%02d,-3.6" % (b"SDDPT" if number % 4 else b"IIDPT", *divmod(depth, 100)))


def damaged_input():
    data = bytearray()
    makers = (
        good_lines,
        strange_lines,
        cut_lines,
        wrong_sums,
        wrong_addresses,
        wrong_fields,
        damaged_bytes,
        long_lines,
        changed_lines,
        many_readings,
    )
    for number, line in enumerate(line for maker in makers for line in maker()):
        data += line + (b"\r\n" if number % 3 == 0 else b"\n")
    return bytes(data) + b"\n\r\n\n" + GOOD + b"\n" + GOOD + b"\r"


def line_input():
    """Sentences of several kinds, and after each other one a damaged line. Of the latest 63 one kind makes just an eighth, and
    one that came often before makes one less."""
    chance = random.Random(2)
    early = [b"MTW", b"ZDA", b"DPT", b"MTW", b"GLL", b"MTW", b"ZDA"] * 20
    late = [b"DPT"] * 20 + [b"DBT"] * 8 + [b"MTW"] * 7 + [b"VHW"] * 9 + [b"ZDA"] * 3 + [b"GLL"] * 16
    order = early + sorted(late, key=lambda _: chance.random())
    talkers = [b"SD", b"II", b"VW", b"7Z"]
    damaged = [*strange_lines(), *wrong_sums()][::4]
    data = bytearray()
    for number, kind in enumerate(order):
        fields = b",%d.%d" % divmod(int(chance.random() * 1000), 10) if number % 5 else b""
        data += sentence(talkers[int(chance.random() * 4)] + kind + fields) + (b"\r\n" if number % 3 == 0 else b"\n")
        if number % 2:
            damage = damaged[number // 2 % len(damaged)]
            if sentence_refusal(damage):
                data += damage + b"\n"
    return bytes(data) + sentence(b"SDDPT")[:-1]


def every_refusal():
    """Each refusal with each column that it can have."""
    columns = {12: range(1, 82), 13: range(8, 80), 14: [2], 15: range(7, 79)}
    return {(number, column) for number in columns for column in columns[number]}


def store(program, data, refusals, ending):
    """Writes a program's input, and what it must print about it."""
    printed = [b"line %d refused %d at %d\n" % (n, *r) for n, r in enumerate(refusals, 1) if r]
    folder = Path(__file__).resolve().parent.parent / "crates" / program
    (folder / "stdin").write_bytes(data)
    (folder / "stdout").write_bytes(b"".join(printed + ending))


def main():
    data = damaged_input()
    lines = lines_of(data)
    refusals = [refusal(line) for line in lines]
    assert set(refusals) == every_refusal() | {None}
    keys = [key(line) for line, refused in zip(lines, refusals) if refused is None]
    store("bedwatch", data, refusals, list(verdicts(keys)))
    data = line_input()
    lines = lines_of(data)
    refusals = [sentence_refusal(line) for line in lines]
    addresses = [line[1:6] for line, refused in zip(lines, refusals) if refused is None]
    store("linewatch", data, refusals, kinds(addresses))


if __name__ == "__main__":
    main()
