#!/usr/bin/env python3
"""Test vectors for reading and writing R-APS frames.

The frames are those of ITU-T G.8032, carried as ITU-T G.8013 says.

Writes vectors.in (the calls) and vectors.out (the answers) into the directory
given, or into the current one:

    python3 tools/frame_vectors.py [DIRECTORY]

The reader and the writer below are written from the frame format alone. Every
vector also says what it is meant to show; the script stops if the reader or
the writer does not give that answer.
"""

import os
import sys

# ---------------------------------------------------------------- the format

FRAME_LEN = 55
OPCODE_RAPS = 0x28
TLV_OFFSET = 0x20       # counted from the octet after the offset itself
TLV_BASE = 22

#        kind     request  RB
KINDS = {
    "NR":    (0x0, 0),
    "NRRB":  (0x0, 1),
    "MS":    (0x7, 0),
    "SF":    (0xB, 0),
    "FS":    (0xD, 0),
    "EVENT": (0xE, 0),
}
RESERVED_REQUESTS = (1, 2, 3, 4, 5, 6, 8, 9, 10, 12, 15)


def write_frame(node_id, ring, vid, mel, kind, dnf, bpr, length):
    """Answer of one write: (refusal or None, the buffer after the call)."""
    buf = bytearray(b"\xAA" * length)
    if node_id == bytes(6) or node_id[0] & 1:
        return 13, buf
    if ring < 1 or ring > 239:
        return 13, buf
    if vid < 1 or vid > 4094:
        return 13, buf
    if mel > 7:
        return 13, buf
    if length < FRAME_LEN:
        return 7, buf

    request, rb = KINDS[kind]
    status = rb << 7 | dnf << 6 | bpr << 5
    if kind == "EVENT":
        status = 0
    frame = bytearray()
    frame += bytes((0x01, 0x19, 0xA7, 0x00, 0x00, ring))    # 0: destination
    frame += node_id                                        # 6: source
    frame += bytes((0x81, 0x00))                            # 12: tag
    frame += (7 << 13 | vid).to_bytes(2, "big")             # 14: priority, VID
    frame += bytes((0x89, 0x02))                            # 16: EtherType
    frame += bytes((mel << 5 | 1,))                         # 18: MEL, version
    frame += bytes((OPCODE_RAPS,))                          # 19: OpCode
    frame += bytes((0x00,))                                 # 20: flags
    frame += bytes((TLV_OFFSET,))                           # 21: TLV offset
    frame += bytes((request << 4,))                         # 22: request
    frame += bytes((status,))                               # 23: RB, DNF, BPR
    frame += node_id                                        # 24: Node ID
    frame += bytes(24)                                      # 30: reserved
    frame += bytes((0x00,))                                 # 54: End TLV
    buf[0:FRAME_LEN] = frame
    return None, buf


def read_frame(ring, vid, frame):
    """Answer of one read: (refusal, octet) or (None, (kind, dnf, bpr, id))."""
    if len(frame) < FRAME_LEN:
        return 1, len(frame)

    #        offset  mask  value
    header = ((0, 0xFF, 0x01), (1, 0xFF, 0x19), (2, 0xFF, 0xA7),
              (3, 0xFF, 0x00), (4, 0xFF, 0x00), (5, 0xFF, ring),
              (12, 0xFF, 0x81), (13, 0xFF, 0x00),
              (14, 0x0F, vid // 256), (15, 0xFF, vid % 256),
              (16, 0xFF, 0x89), (17, 0xFF, 0x02))
    for offset, mask, value in header:
        if frame[offset] & mask != value:
            return 2, offset

    if frame[19] != OPCODE_RAPS:
        return 3, 19
    if frame[21] < 32:
        return 4, 21

    request = frame[22] >> 4
    sub_code = frame[22] & 0x0F
    if request in RESERVED_REQUESTS:
        return 5, 22
    if request == 0xE and sub_code != 0:
        return 5, 22

    if TLV_BASE + frame[21] >= len(frame):
        return 6, 21

    rb = frame[23] >> 7 & 1
    dnf = frame[23] >> 6 & 1
    bpr = frame[23] >> 5 & 1
    if request == 0xE:
        kind, dnf, bpr = "EVENT", 0, 0
    elif request == 0x0:
        kind = "NRRB" if rb else "NR"
    else:
        kind = {0x7: "MS", 0xB: "SF", 0xD: "FS"}[request]
    return None, (kind, dnf, bpr, bytes(frame[24:30]))


# --------------------------------------------------------- lines and answers

def hex_of(octets):
    return bytes(octets).hex().upper() or "-"


class Table:
    """The call lines and their answer lines."""

    def __init__(self):
        self.calls = []
        self.answers = []
        self.number = 0

    def group(self, text):
        if self.calls:
            self.calls.append("")
        self.calls.append("# " + text)

    def add(self, call, answer):
        self.calls.append(call)
        self.answers.append(answer)
        self.number += 1

    def read(self, ring, vid, frame, want):
        """want: (refusal, octet) or (kind, dnf, bpr, id)."""
        call = "read %d %d %s" % (ring, vid, hex_of(frame))
        refusal, rest = read_frame(ring, vid, frame)
        if refusal is None:
            got = rest
            answer = "ok %s dnf=%d bpr=%d id=%s" % (
                rest[0], rest[1], rest[2], hex_of(rest[3]))
        else:
            got = (refusal, rest)
            answer = "no %d frame st=- port=- oct=%d" % (refusal, rest)
        if got != want:
            sys.exit("%s: %r where %r is meant" % (call, got, want))
        self.add(call, answer)

    def write(self, node_id, ring, vid, mel, kind, dnf, bpr, length, want):
        """want: the refusal, or None for a frame."""
        call = "write %s %d %d %d %s %d %d %d" % (
            hex_of(node_id), ring, vid, mel, kind, dnf, bpr, length)
        refusal, buf = write_frame(
            node_id, ring, vid, mel, kind, dnf, bpr, length)
        if refusal is None:
            answer = "ok buf=%s" % hex_of(buf)
        else:
            answer = "no %d frame st=- port=- oct=- buf=%s" % (
                refusal, hex_of(buf))
        if refusal != want:
            sys.exit("%s: %r where %r is meant" % (call, refusal, want))
        self.add(call, answer)
        return buf


# ------------------------------------------------------------- frames to use

ID = bytes.fromhex("00005E005301")
RING = 1
VID = 100
MEL = 7


def frame_of(kind="SF", dnf=0, bpr=1, ring=RING, vid=VID, mel=MEL,
             node_id=ID, length=FRAME_LEN):
    """A frame as the writer makes it; longer ones have a tail of AA."""
    refusal, buf = write_frame(node_id, ring, vid, mel, kind, dnf, bpr, length)
    assert refusal is None
    return buf


def with_octets(frame, octets):
    """A copy of the frame with the octets {offset: value} put in."""
    changed = bytearray(frame)
    for offset, value in octets.items():
        changed[offset] = value
    return changed


def cut(frame, length):
    return bytearray(frame[:length])


# ---------------------------------------------------------------- the groups

def written_and_read(t):
    t.group("every kind, DNF and BPR, written and read")
    settings = (
        #  Node ID                         ring  VID  MEL length
        (bytes.fromhex("00005E005301"),       1,  100, 7, 55),
        (bytes.fromhex("FEDCBA987654"),     239, 4094, 0, 60),
    )
    for node_id, ring, vid, mel, length in settings:
        for kind in KINDS:
            for dnf in (0, 1):
                for bpr in (0, 1):
                    buf = t.write(node_id, ring, vid, mel, kind, dnf, bpr,
                                  length, None)
                    carried = (dnf, bpr) if kind != "EVENT" else (0, 0)
                    t.read(ring, vid, buf, (kind,) + carried + (node_id,))

    t.group("other ring IDs, VIDs, MELs and Node IDs, written and read")
    settings = (
        #  Node ID      ring  VID  MEL kind  DNF BPR
        ("000000000001",   2,    1, 0, "NR",    0, 1),
        ("020000000000",  16,  255, 1, "NRRB",  1, 0),
        ("00FFFFFFFFFF",  90,  256, 2, "MS",    1, 1),
        ("FEFFFFFFFFFF", 127,  257, 3, "SF",    0, 0),
        ("800000000000", 128, 2048, 4, "FS",    1, 0),
        ("0001FE80AA55", 165, 3840, 5, "EVENT", 0, 0),
        ("AA55AA55AA55", 238, 4093, 6, "NR",    1, 1),
    )
    for text, ring, vid, mel, kind, dnf, bpr in settings:
        node_id = bytes.fromhex(text)
        buf = t.write(node_id, ring, vid, mel, kind, dnf, bpr, 55, None)
        t.read(ring, vid, buf, (kind, dnf, bpr, node_id))


def lengths(t):
    good = ("SF", 0, 1, ID)
    t.group("refusal 1: lengths under 55; longer frames are read")
    long_frame = frame_of(length=300)
    for length in (0, 1, 22, 54):
        t.read(RING, VID, cut(long_frame, length), (1, length))
    for length in (55, 56, 255, 300):
        t.read(RING, VID, cut(long_frame, length), good)


HEADER = (0, 1, 2, 3, 4, 5, 12, 13, 14, 15, 16, 17)


def headers(t):
    base = frame_of()
    t.group("refusal 2: each header octet damaged alone, lowest bit")
    for offset in HEADER:
        t.read(RING, VID, with_octets(base, {offset: base[offset] ^ 0x01}),
               (2, offset))
    t.group("refusal 2: each header octet damaged alone, highest bit compared")
    for offset in HEADER:
        bit = 0x08 if offset == 14 else 0x80
        t.read(RING, VID, with_octets(base, {offset: base[offset] ^ bit}),
               (2, offset))
    t.group("refusal 2: two header octets damaged, the first counts")
    pairs = list(zip(HEADER, HEADER[1:])) + [(0, 17), (5, 15)]
    for first, second in pairs:
        t.read(RING, VID, with_octets(base, {first: base[first] ^ 0x02,
                                             second: base[second] ^ 0x04}),
               (2, first))

    t.group("refusal 2: ring ID or VID given is not the one in the frame")
    for ring in (0, 2, 255):
        t.read(ring, VID, base, (2, 5))
    #  VIDs: low octet differs, high octet differs, both differ
    for vid, offset in ((0, 15), (101, 15), (356, 14), (3940, 14), (4095, 14)):
        t.read(RING, vid, base, (2, offset))
    t.group("refusal 2: VID given over 4095 is not cut to twelve bits")
    for vid in (4096 + VID, 0x8000 + VID, 0xF000 + VID, 65535):
        t.read(RING, vid, base, (2, 14))
    t.read(RING, 0xE000 + VID, base, (2, 14))       # as octets 14 and 15 are
    t.read(RING, 65535, with_octets(base, {14: 0xFF, 15: 0xFF}), (2, 14))

    t.group("reading compares what it is given, whatever its range")
    for ring in (0, 240, 255):
        t.read(ring, VID, with_octets(base, {5: ring}), ("SF", 0, 1, ID))
    for vid in (0, 4095):
        octets = {14: 0xE0 | vid // 256, 15: vid % 256}
        t.read(RING, vid, with_octets(base, octets), ("SF", 0, 1, ID))
    for text in ("000000000000", "010000000000", "FFFFFFFFFFFF"):
        node_id = bytes.fromhex(text)
        octets = {24 + i: node_id[i] for i in range(6)}
        t.read(RING, VID, with_octets(base, octets), ("SF", 0, 1, node_id))


def opcodes(t):
    base = frame_of()
    t.group("refusal 3: OpCodes that are not R-APS")
    for opcode in (0x00, 0x01, 0x27, 0x29, 0xA8, 0xFF):
        t.read(RING, VID, with_octets(base, {19: opcode}), (3, 19))


def tlv_offsets(t):
    good = ("SF", 0, 1, ID)
    t.group("refusal 4: TLV offset under 32")
    for offset, length in ((0, 55), (1, 55), (30, 55), (31, 55), (31, 300)):
        t.read(RING, VID, with_octets(frame_of(length=length), {21: offset}),
               (4, 21))

    t.group("refusal 6: 22 plus the TLV offset around the length")
    #  For each offset: 22 + offset = length - 1, length, length + 1, where
    #  the length is not under 55.
    for offset in (32, 33, 34, 128, 233, 255):
        for length in (offset + 23, offset + 22, offset + 21):
            if length < FRAME_LEN:
                continue
            frame = with_octets(frame_of(length=length), {21: offset})
            inside = 22 + offset <= length - 1
            t.read(RING, VID, frame, good if inside else (6, 21))
    t.group("refusal 6: smallest frame with the largest TLV offset; "
            "largest TLV offset well inside")
    t.read(RING, VID, with_octets(frame_of(), {21: 255}), (6, 21))
    t.read(RING, VID, with_octets(frame_of(length=300), {21: 255}), good)


def requests(t):
    base = frame_of()
    t.group("refusal 5: every reserved request, sub-code 0")
    for request in RESERVED_REQUESTS:
        t.read(RING, VID, with_octets(base, {22: request << 4}), (5, 22))
    t.group("refusal 5: reserved requests, sub-code 15")
    for request in (1, 6, 12, 15):
        t.read(RING, VID, with_octets(base, {22: request << 4 | 15}), (5, 22))
    t.group("refusal 5: events with sub-code 1 to 15")
    event = frame_of(kind="EVENT", bpr=0)
    for sub_code in range(1, 16):
        t.read(RING, VID, with_octets(event, {22: 0xE0 | sub_code}), (5, 22))


def pairs(t):
    t.group("two refusals at once, the lower number counts "
            "(4 and 6 need a frame under 55 octets, see 1 with 4 and 6)")
    base = frame_of()
    #  what makes each refusal true; 1 is a cut to 54 octets
    damage = {
        2: {12: 0x88},
        3: {19: 0x27},
        4: {21: 31},
        5: {22: 0x10},
        6: {21: 33},
    }
    octet = {2: 12, 3: 19, 4: 21, 5: 22, 6: 21}
    for second in (2, 3, 4, 5, 6):
        t.read(RING, VID, cut(with_octets(base, damage[second]), 54), (1, 54))
    for first in (2, 3, 4, 5):
        for second in range(first + 1, 7):
            if (first, second) == (4, 6):
                continue
            frame = with_octets(with_octets(base, damage[first]),
                                damage[second])
            t.read(RING, VID, frame, (first, octet[first]))
    t.group("1 with 4 and 6; 5 as an event sub-code with 6; all at once")
    t.read(RING, VID, cut(with_octets(base, damage[4]), 53), (1, 53))
    t.read(RING, VID, with_octets(base, {22: 0xE1, 21: 255}), (5, 22))
    every = with_octets(base, {12: 0x88, 19: 0x27, 21: 31, 22: 0x10})
    t.read(RING, VID, every, (2, 12))
    t.read(RING, VID, cut(every, 54), (1, 54))
    t.read(RING, VID, bytes(54), (1, 54))
    t.read(RING, VID, bytes(55), (2, 0))
    t.read(RING, VID, b"\xFF" * 55, (2, 0))


def ignored(t):
    good = ("SF", 0, 1, ID)
    base = frame_of()
    #  priority and MEL are all ones in this frame, so here they are set to 0
    one_by_one = (
        ("source", {i: 0xFF for i in range(6, 12)}),
        ("source, all zero", {i: 0x00 for i in range(6, 12)}),
        ("priority 0", {14: base[14] & 0x1F}),
        ("the bit after the priority", {14: base[14] | 0x10}),
        ("priority 0 and the bit after it", {14: 0x10}),
        ("MEL 0", {18: base[18] & 0x1F}),
        ("version 31", {18: base[18] | 0x1F}),
        ("version 0", {18: base[18] & 0xE0}),
        ("flags", {20: 0xFF}),
        ("reserved bits of octet 23", {23: base[23] | 0x1F}),
        ("octet 30", {30: 0xFF}),
        ("octet 53", {53: 0xFF}),
        ("octets 30 to 53", {i: 0xFF for i in range(30, 54)}),
        ("octet 54", {54: 0xFF}),
    )
    for name, octets in one_by_one:
        t.group("ignored: " + name)
        t.read(RING, VID, with_octets(base, octets), good)
    t.group("ignored: octet 54 and a tail")
    t.read(RING, VID, base[:54] + b"\xFF" * 2, good)
    t.read(RING, VID, base[:54] + b"\xFF" * 246, good)
    t.read(RING, VID, base + b"\xFF", good)

    t.group("ignored: sub-code of all but events")
    for kind in ("NR", "NRRB", "MS", "SF", "FS"):
        frame = frame_of(kind=kind)
        for sub_code in (1, 15):
            t.read(RING, VID, with_octets(frame, {22: frame[22] | sub_code}),
                   (kind, 0, 1, ID))
    t.group("ignored: RB of MS, SF and FS; it counts for NR")
    for kind in ("MS", "SF", "FS"):
        for status, dnf, bpr in ((0x80, 0, 0), (0xE0, 1, 1)):
            t.read(RING, VID, with_octets(frame_of(kind=kind), {23: status}),
                   (kind, dnf, bpr, ID))
    t.read(RING, VID, with_octets(frame_of(kind="NR"), {23: 0x80}),
           ("NRRB", 0, 0, ID))
    t.read(RING, VID, with_octets(frame_of(kind="NR"), {23: 0x7F}),
           ("NR", 1, 1, ID))
    t.group("ignored: reserved bits of octet 23, "
            "first and last bit, other kinds")
    for bit in (0x10, 0x01):
        t.read(RING, VID, with_octets(base, {23: bit}), ("SF", 0, 0, ID))
    for kind in ("NR", "NRRB", "MS", "FS"):
        frame = frame_of(kind=kind, dnf=0, bpr=0)
        t.read(RING, VID, with_octets(frame, {23: frame[23] | 0x1F}),
               (kind, 0, 0, ID))
    t.group("ignored: octet 23 of events")
    event = frame_of(kind="EVENT", bpr=0)
    for status in (0x80, 0x40, 0x20, 0x1F, 0xE0, 0xFF):
        t.read(RING, VID, with_octets(event, {23: status}),
               ("EVENT", 0, 0, ID))
    t.group("ignored: everything ignored at all ones at once")
    everything = {i: 0xFF for i in range(6, 12)}
    everything.update({14: 0xF0, 18: 0xFF, 20: 0xFF})
    everything.update({i: 0xFF for i in range(30, 55)})
    for kind, octet_22, octet_23, dnf, bpr in (
            ("NR", 0x0F, 0x1F, 0, 0), ("NRRB", 0x0F, 0xFF, 1, 1),
            ("MS", 0x7F, 0x9F, 0, 0), ("SF", 0xBF, 0xDF, 1, 0),
            ("FS", 0xDF, 0xBF, 0, 1), ("EVENT", 0xE0, 0xFF, 0, 0)):
        everything.update({22: octet_22, 23: octet_23})
        t.read(RING, VID, with_octets(base, everything) + b"\xFF" * 5,
               (kind, dnf, bpr, ID))


def writer(t):
    t.group("writing: ring IDs at both edges")
    for ring, want in ((0, 13), (1, None), (239, None), (240, 13), (255, 13)):
        t.write(ID, ring, VID, MEL, "SF", 0, 1, 55, want)
    t.group("writing: VIDs at both edges")
    for vid, want in ((0, 13), (1, None), (4094, None), (4095, 13),
                      (4196, 13), (65535, 13)):
        t.write(ID, RING, vid, MEL, "SF", 0, 1, 55, want)
    t.group("writing: MELs at both edges")
    for mel, want in ((0, None), (7, None), (8, 13), (255, 13)):
        t.write(ID, RING, VID, mel, "SF", 0, 1, 55, want)
    t.group("writing: Node IDs")
    for text, want in (("000000000000", 13), ("000000000001", None),
                       ("000100000000", None), ("010000000000", 13),
                       ("020000000000", None), ("FE0000000000", None),
                       ("FEFFFFFFFFFF", None), ("FFFEFEFEFEFE", 13),
                       ("FFFFFFFFFFFF", 13)):
        t.write(bytes.fromhex(text), RING, VID, MEL, "NR", 0, 0, 55, want)
    t.group("writing: lengths of the buffer")
    for length, want in ((0, 7), (54, 7), (55, None), (56, None), (80, None),
                         (300, None)):
        t.write(ID, RING, VID, MEL, "SF", 0, 1, length, want)
    t.group("writing: an event carries neither DNF nor BPR, "
            "and changes only the first 55 octets")
    t.write(ID, RING, VID, MEL, "EVENT", 1, 1, 56, None)
    t.group("writing: 13 and 7 at once, 13 counts")
    t.write(bytes(6), RING, VID, MEL, "SF", 0, 1, 54, 13)
    t.write(b"\x01" + ID[1:], RING, VID, MEL, "SF", 0, 1, 0, 13)
    t.write(ID, 0, VID, MEL, "SF", 0, 1, 0, 13)
    t.write(ID, 240, VID, MEL, "SF", 0, 1, 54, 13)
    t.write(ID, RING, 0, MEL, "SF", 0, 1, 54, 13)
    t.write(ID, RING, 4095, MEL, "SF", 0, 1, 54, 13)
    t.write(ID, RING, VID, 8, "SF", 0, 1, 54, 13)
    t.group("writing: a refusal leaves a larger buffer as it was")
    t.write(ID, RING, VID, 8, "NRRB", 1, 1, 80, 13)


def main():
    if len(sys.argv) > 2:
        sys.exit("usage: frame_vectors.py [DIRECTORY]")
    directory = sys.argv[1] if len(sys.argv) == 2 else "."

    # the example of the format, octet by octet
    _, buf = write_frame(ID, 1, 100, 7, "SF", 0, 1, 60)
    assert hex_of(buf) == ("0119A700000100005E0053018100E0648902E1280020B020"
                           "00005E005301" + "00" * 25 + "AA" * 5)

    t = Table()
    written_and_read(t)
    lengths(t)
    headers(t)
    opcodes(t)
    tlv_offsets(t)
    requests(t)
    pairs(t)
    ignored(t)
    writer(t)

    for name, lines in (("vectors.in", t.calls), ("vectors.out", t.answers)):
        with open(os.path.join(directory, name), "w", newline="\n") as out:
            out.write("".join(line + "\n" for line in lines))
    print("%d vectors" % t.number)


if __name__ == "__main__":
    main()
