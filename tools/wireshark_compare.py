#!/usr/bin/env python3
"""Compare the answers to R-APS frame vectors with what tshark shows.

    python3 tools/wireshark_compare.py VECTORS_IN ANSWERS

VECTORS_IN holds the call lines, ANSWERS the answer lines of the program (the
same number, in the same order). Every frame that was accepted by a read and
every frame that was made by a write goes into one pcap file, and tshark's
fields of it are compared with the answer (read) or with the call (write).

Some fields are not read by the format (ITU-T G.8032) but are shown by tshark
as they stand in the frame, and some are not shown by tshark. Both are counted
as "not compared". Frames where tshark shows a value that the answer does not
carry, or does not show one that it carries, are listed by their line in
VECTORS_IN.

Ends with 0 if nothing differs, with 1 if something differs, with 2 if the
comparison could not be made. Refused frames are not looked at.
"""

import os
import re
import struct
import subprocess
import sys
import tempfile

FRAME_LEN = 55
REQUEST = {"NR": 0x0, "NRRB": 0x0, "MS": 0x7, "SF": 0xB, "FS": 0xD,
           "EVENT": 0xE}

FIELDS = (
    "frame.number", "frame.len", "eth.dst", "eth.src", "eth.type",
    "vlan.priority", "vlan.dei", "vlan.id", "vlan.etype",
    "cfm.md.level", "cfm.version", "cfm.opcode", "cfm.flags",
    "cfm.first.tlv.offset", "cfm.raps.req.st", "cfm.raps.event.subcode",
    "cfm.raps.flags", "cfm.raps.flags.rb", "cfm.raps.flags.dnf",
    "cfm.raps.flags.bpr", "cfm.raps.node.id", "cfm.raps.reserved",
    "cfm.tlv.type", "_ws.malformed",
)

READ_OK = re.compile(
    r"ok (NR|NRRB|MS|SF|FS|EVENT) dnf=([01]) bpr=([01]) id=([0-9A-F]{12})")
WRITE_OK = re.compile(r"ok buf=((?:[0-9A-F]{2})+|-)")
REFUSED = re.compile(r"no \d+ frame st=- port=- oct=(?:\d+|-)(?: buf=\S+)?")


def stop(text):
    print("cannot compare: " + text)
    sys.exit(2)


def octets_of(text):
    return b"" if text == "-" else bytes.fromhex(text)


def mac(octets):
    return ":".join("%02x" % octet for octet in octets)


# ------------------------------------------------------------ calls, answers

def frames_from(calls_path, answers_path):
    """The frames to dissect, each with what is to be expected of it."""
    calls = []
    with open(calls_path) as lines:
        for number, line in enumerate(lines, 1):
            line = line.strip()
            if line and not line.startswith("#"):
                calls.append((number, line))
    with open(answers_path) as lines:
        answers = [line.strip() for line in lines]
    if len(calls) != len(answers):
        stop("%d calls, %d answers" % (len(calls), len(answers)))

    frames = []
    for (number, call), answer in zip(calls, answers):
        words = call.split()
        if REFUSED.fullmatch(answer):
            continue
        if words[0] == "read":
            found = READ_OK.fullmatch(answer)
            if not found:
                stop("line %d: answer %r" % (number, answer))
            frames.append({
                "line": number, "call": "read",
                "octets": octets_of(words[3]),
                "ring": int(words[1]), "vid": int(words[2]),
                "kind": found.group(1),
                "dnf": int(found.group(2)), "bpr": int(found.group(3)),
                "id": octets_of(found.group(4)),
            })
        elif words[0] == "write":
            found = WRITE_OK.fullmatch(answer)
            if not found:
                stop("line %d: answer %r" % (number, answer))
            event = words[5] == "EVENT"
            frames.append({
                "line": number, "call": "write",
                "octets": octets_of(found.group(1))[:FRAME_LEN],
                "id": octets_of(words[1]),
                "ring": int(words[2]), "vid": int(words[3]),
                "mel": int(words[4]), "kind": words[5],
                "dnf": 0 if event else int(words[6]),
                "bpr": 0 if event else int(words[7]),
            })
        else:
            stop("line %d: call %r" % (number, words[0]))
    return frames


# -------------------------------------------------------------------- tshark

def write_pcap(path, frames):
    with open(path, "wb") as out:
        # magic, version 2.4, zone, accuracy, longest record, Ethernet
        out.write(struct.pack("<IHHiIII", 0xA1B2C3D4, 2, 4, 0, 0, 65535, 1))
        for number, frame in enumerate(frames):
            length = len(frame["octets"])
            # seconds, microseconds, octets kept, octets of the frame
            out.write(struct.pack("<IIII", number, 0, length, length))
            out.write(frame["octets"])


def run_tshark(pcap):
    """One dictionary of shown fields for each frame."""
    command = ["tshark", "-n", "-r", pcap, "-T", "fields",
               "-E", "separator=|", "-E", "occurrence=f"]
    for field in FIELDS:
        command += ["-e", field]
    try:
        done = subprocess.run(command, stdout=subprocess.PIPE,
                              stderr=subprocess.PIPE, text=True)
    except FileNotFoundError:
        stop("tshark is not installed")
    if done.returncode != 0:
        stop("tshark: " + done.stderr.strip())
    rows = []
    for line in done.stdout.splitlines():
        values = line.split("|")
        if len(values) != len(FIELDS):
            stop("tshark line %r" % line)
        rows.append(dict(zip(FIELDS, values)))
    return rows


def tshark_version():
    try:
        done = subprocess.run(["tshark", "--version"], stdout=subprocess.PIPE,
                              stderr=subprocess.PIPE, text=True)
    except FileNotFoundError:
        stop("tshark is not installed")
    return done.stdout.splitlines()[0]


def number_of(text):
    """A shown number or bit; None if tshark does not show the field."""
    if text == "":
        return None
    if text in ("True", "False"):       # newer versions show bits so
        return int(text == "True")
    return int(text, 0)


# --------------------------------------------------------------- the results

class Result:
    """Counts for each field, and the lines to list."""

    def __init__(self):
        self.counts = {}    # (call, field): [equal, different, not compared]
        self.differences = []
        self.listed = {}    # reason: lines of the calls

    def count(self, frame, field):
        key = (frame["call"], field)
        return self.counts.setdefault(key, [0, 0, 0])

    def compare(self, frame, field, shown, expected):
        if shown == expected:
            self.count(frame, field)[0] += 1
        else:
            self.count(frame, field)[1] += 1
            self.differences.append(
                "line %d, %s, %s: tshark %r, expected %r" % (
                    frame["line"], frame["call"], field, shown, expected))

    def not_compared(self, frame, field):
        self.count(frame, field)[2] += 1

    def note(self, frame, reason):
        self.listed.setdefault(reason, []).append(frame["line"])


def other_version(shown):
    """tshark shows the sub-code of events and BPR for version 1 only."""
    return number_of(shown["cfm.version"]) not in (None, 1)


def compare_common(result, frame, shown):
    """What a frame read and a frame written have in common."""
    def number(field):
        return number_of(shown[field])

    kind = frame["kind"]
    result.compare(frame, "destination", shown["eth.dst"],
                   mac((0x01, 0x19, 0xA7, 0x00, 0x00, frame["ring"])))
    result.compare(frame, "tag type", number("eth.type"), 0x8100)
    result.compare(frame, "VID", number("vlan.id"), frame["vid"])
    result.compare(frame, "EtherType", number("vlan.etype"), 0x8902)
    result.compare(frame, "OpCode", number("cfm.opcode"), 40)
    result.compare(frame, "request", number("cfm.raps.req.st"), REQUEST[kind])
    sub_code = number("cfm.raps.event.subcode")
    if kind != "EVENT":
        result.not_compared(frame, "sub-code")
    elif sub_code is None and other_version(shown):
        result.not_compared(frame, "sub-code")
        result.note(frame, "sub-code of EVENT not shown by tshark "
                           "(version is not 1)")
    else:
        result.compare(frame, "sub-code", sub_code, 0)
    result.compare(frame, "Node ID", shown["cfm.raps.node.id"],
                   mac(frame["id"]))


def bpr_shown(result, frame, shown):
    """BPR as tshark shows it, or from its status octet if it does not."""
    bit = number_of(shown["cfm.raps.flags.bpr"])
    status = number_of(shown["cfm.raps.flags"])
    if bit is None and status is not None and other_version(shown):
        result.note(frame, "BPR not shown by tshark (version is not 1), "
                           "taken from the status octet it shows")
        bit = status >> 5 & 1
    return bit


def compare_read(result, frame, shown):
    octets = frame["octets"]
    kind = frame["kind"]
    compare_common(result, frame, shown)

    # in no answer; shown as it stands in the frame
    result.compare(frame, "MEL (frame)", number_of(shown["cfm.md.level"]),
                   octets[18] >> 5)
    # status octet: tshark must show what stands in the frame, so that a bit
    # that is not read is known to be that bit
    result.compare(frame, "status octet (frame)",
                   number_of(shown["cfm.raps.flags"]), octets[23])

    offset = number_of(shown["cfm.first.tlv.offset"])
    inside = offset is not None and 32 <= offset <= len(octets) - 23
    result.compare(frame, "TLV offset 32 or more, inside", inside, True)

    bits = {"RB": number_of(shown["cfm.raps.flags.rb"]),
            "DNF": number_of(shown["cfm.raps.flags.dnf"]),
            "BPR": bpr_shown(result, frame, shown)}
    answer = {"RB": int(kind == "NRRB"), "DNF": frame["dnf"],
              "BPR": frame["bpr"]}
    for name in ("RB", "DNF", "BPR"):
        if name == "RB":
            is_read = REQUEST[kind] == 0
        else:
            is_read = kind != "EVENT"
        if is_read:
            result.compare(frame, name, bits[name], answer[name])
            continue
        result.not_compared(frame, name)
        if answer[name] != 0:
            result.compare(frame, name + " counts as 0 where not read",
                           answer[name], 0)
        if bits[name] != 0:
            result.note(frame, "%s of %s is 1 in the frame, not read" % (
                name, kind))

    # the rest is not read: list where tshark shows something else than the
    # writer would have put there
    for field, plain, reason in (
            ("vlan.priority", 7, "priority is not 7"),
            ("vlan.dei", 0, "the bit after the priority is 1"),
            ("cfm.version", 1, "version is not 1"),
            ("cfm.flags", 0, "flags are not 0")):
        if number_of(shown[field]) != plain:
            result.note(frame, reason + ", not read")
    if shown["eth.src"] != shown["cfm.raps.node.id"]:
        result.note(frame, "source is not the Node ID, not read")
    if octets[23] & 0x1F:
        result.note(frame, "reserved bits of the status octet are not 0, "
                           "not read")
    if shown["cfm.raps.reserved"] != "00" * 24:
        result.note(frame, "reserved octets 30 to 53 are not 0, not read")
    if kind != "EVENT" and octets[22] & 0x0F:
        result.note(frame, "sub-code is not 0, not read (not shown by tshark)")
    if shown["_ws.malformed"]:
        if any(octets[54:]):
            result.note(frame, "tshark calls the octets from 54 on malformed, "
                               "not read")
        else:
            result.compare(frame, "not malformed", False, True)


def compare_written(result, frame, shown):
    def number(field):
        return number_of(shown[field])

    kind = frame["kind"]
    compare_common(result, frame, shown)
    rb = int(kind == "NRRB")
    for name, value, expected in (
            ("length", number("frame.len"), FRAME_LEN),
            ("source", shown["eth.src"], mac(frame["id"])),
            ("priority", number("vlan.priority"), 7),
            ("bit after priority", number("vlan.dei"), 0),
            ("MEL", number("cfm.md.level"), frame["mel"]),
            ("version", number("cfm.version"), 1),
            ("flags", number("cfm.flags"), 0),
            ("TLV offset", number("cfm.first.tlv.offset"), 32),
            ("RB", number("cfm.raps.flags.rb"), rb),
            ("DNF", number("cfm.raps.flags.dnf"), frame["dnf"]),
            ("BPR", number("cfm.raps.flags.bpr"), frame["bpr"]),
            ("status octet", number("cfm.raps.flags"),
             rb << 7 | frame["dnf"] << 6 | frame["bpr"] << 5),
            ("reserved octets", shown["cfm.raps.reserved"], "00" * 24),
            ("End TLV", number("cfm.tlv.type"), 0),
            ("not malformed", shown["_ws.malformed"], "")):
        result.compare(frame, name, value, expected)


def lines_text(lines):
    return ", ".join(str(line) for line in lines)


def main():
    if len(sys.argv) != 3:
        stop("usage: wireshark_compare.py VECTORS_IN ANSWERS")
    try:
        frames = frames_from(sys.argv[1], sys.argv[2])
    except (OSError, ValueError, IndexError, KeyError) as error:
        stop("calls or answers: %s" % error)
    if not frames:
        stop("no frame was accepted or written")

    with tempfile.TemporaryDirectory() as directory:
        pcap = os.path.join(directory, "frames.pcap")
        write_pcap(pcap, frames)
        rows = run_tshark(pcap)
    if len(rows) != len(frames):
        stop("%d frames, tshark shows %d" % (len(frames), len(rows)))

    result = Result()
    for frame, shown in zip(frames, rows):
        if frame["call"] == "read":
            if len(frame["octets"]) < FRAME_LEN:
                result.compare(frame, "length of 55 or more", False, True)
                continue
            compare_read(result, frame, shown)
        else:
            compare_written(result, frame, shown)

    print(tshark_version())
    for call in ("read", "write"):
        for (key, field), counts in result.counts.items():
            if key == call:
                equal, different, left_out = counts
                print("%-5s  %-30s equal %3d  different %d  not compared %d"
                      % (call, field, equal, different, left_out))
    for reason, lines in result.listed.items():
        print("listed: %s: %d (lines %s)" % (
            reason, len(lines), lines_text(lines)))
    for text in result.differences:
        print("DIFFERENT: " + text)
    read = sum(frame["call"] == "read" for frame in frames)
    compared = sum(counts[0] + counts[1] for counts in result.counts.values())
    print("%d frames read, %d frames written, %d values compared, "
          "%d different" % (read, len(frames) - read, compared,
                            len(result.differences)))
    sys.exit(1 if result.differences else 0)


if __name__ == "__main__":
    main()
