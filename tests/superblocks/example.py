#!/usr/bin/env python3
"""The slot of one superblock, made from the text of docs/FORMATS.md, "Superblock", alone.

    tests/superblocks/example.py > slot          its 4,096 bytes
    tests/superblocks/example.py --hex           the same as text, as in example.hex
    tests/superblocks/example.py --rows          its rows of 16 bytes that are not zero, as in the test of nm_storage_tests
    tests/superblocks/example.py --check         fails where a file of bytes or that test has others
    tests/superblocks/example.py --version-N ..  the same, of version N of the format: 1 and 2 as in example-N.hex
    tests/superblocks/example.py --as-version-N FILE     makes a file of superblocks one of this version, 1 or 2
"""
import hashlib
import os
import struct
import sys

FOLDER = os.path.dirname(os.path.abspath(__file__))
TEST = os.path.join(FOLDER, "../rattle/nm_storage_tests/src/superblocks.rt.in")

GENERATION = 57
MIRROR = bytes.fromhex("0123456789abcdef0011223344556677")
BLOCKS, REGION_BLOCKS, SPAN_REGIONS = 2**21, 128, 128
STRIPES, LEGS, LEG, FLAGS = 8, 2, 1, 0
LEG_IDS = [0x1111111111111111, 0x2222222222222222]
SEEN = [56, 57]
# for each stripe: in sync, about to be, lacks no more than marked spans
SETS = [(0b11, 0, 0)] * 5 + [(0b10, 0b01, 0)] + [(0b10, 0, 0b01)] * 2
LINEAGES = [0xA0A0A0A0A0A0A0A0, 0xB0B0B0B0B0B0B0B0]
FORKS = [40]
MARKED = [0, 9, 15]
# for each leg what tells its file or device; the second one's is unknown
IDENTITIES = ["file 131074 born 1700000000.123456789"]
CHANGED = [1700000100123456789]


def table(numbers, count):
    return b"".join(n.to_bytes(8, "big") for n in numbers).ljust(8 * count, b"\0")


def identities(version):
    if version == 1:
        return bytes(320)
    known = b"".join(hashlib.sha256(text.encode()).digest() for text in IDENTITIES)
    return known.ljust(256, b"\0") + table(CHANGED, 8)


def with_digest(head, tail):
    return head + hashlib.sha256(head + bytes(8) + tail).digest()[:8] + tail


def payload(version):
    head = MIRROR
    head += struct.pack(">QII", BLOCKS, REGION_BLOCKS, SPAN_REGIONS)
    head += bytes([STRIPES, LEGS, LEG, FLAGS, 0, 0, 0, 0])
    head += table(LEG_IDS, 8) + table(SEEN, 8)
    head += b"".join(bytes([*sets, 0]) for sets in SETS).ljust(256, b"\0")
    marks = bytearray(2048)
    for span in MARKED:
        marks[span // 8] |= 1 << span % 8
    tail = table(LINEAGES, 4) + table(FORKS, 4) + bytes(marks) + identities(version) + bytes(1104)
    return with_digest(head, tail)


def header(version, number, generation):
    start = b"NMRS" + bytes([version, number])
    check = int.from_bytes(start + generation, "big") % 65521 + 1 if version == 3 else 0
    return start + check.to_bytes(2, "big") + generation


def slot_of(version, generation, whole):
    assert len(whole) == 8 * 496
    return b"".join(
        header(version, number, generation) + whole[496 * number:496 * number + 496]
        for number in range(8))


def slot(version):
    return slot_of(version, GENERATION.to_bytes(8, "big"), payload(version))


def as_version(version, path):
    """Makes each superblock of the file one of this version: one of version 1 tells of no identities and no times."""
    with open(path, "r+b") as file:
        for at in (0, 4096):
            file.seek(at)
            old = file.read(4096)
            if old[:4] == b"NMRS":
                whole = b"".join(old[512 * n + 16:512 * n + 512] for n in range(8))
                if version == 1:
                    whole = with_digest(whole[:424], whole[432:2544] + bytes(1424))
                file.seek(at)
                file.write(slot_of(version, old[8:16], whole))


def as_hex(made):
    return "".join(made[at:at + 32].hex() + "\n" for at in range(0, len(made), 32))


def rows(made):
    """The rows of 16 bytes that are not all zero, a line each."""
    return "".join(
        f"    ({at}, 0x{made[at:at + 16].hex()}),\n"
        for at in range(0, len(made), 16) if any(made[at:at + 16]))


def contents(path):
    with open(path, encoding="utf-8") as file:
        return file.read()


def check():
    wrong = []
    for version, name in ((3, "example.hex"), (2, "example-2.hex"), (1, "example-1.hex")):
        made = slot(version)
        if contents(os.path.join(FOLDER, name)) != as_hex(made):
            wrong.append(name)
        if rows(made) not in contents(TEST):
            wrong.append(f"{os.path.basename(TEST)}, version {version}")
    return ", ".join(wrong)


if __name__ == "__main__":
    words = sys.argv[1:]
    asked = [int(word[10:]) for word in words if word.startswith("--version-")]
    made = slot(*asked or [3])
    assert len(made) == 4096
    words = [word for word in words if not word.startswith("--version-")]
    if words == ["--hex"]:
        print(as_hex(made), end="")
    elif words == ["--rows"]:
        print(rows(made), end="")
    elif words == ["--check"]:
        wrong = check()
        sys.exit(f"other bytes: {wrong}" if wrong else 0)
    elif words[:1] in (["--as-version-1"], ["--as-version-2"]):
        as_version(int(words[0][13:]), words[1])
    else:
        sys.stdout.buffer.write(made)
