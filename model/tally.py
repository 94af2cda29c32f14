#!/usr/bin/env python3
"""The tally program once more, written from documents 01 and 02 alone: the tables below are document 01's, read as text.

    python3 model/tally.py < FILE

It shares no code with the crates nor with model/desk.py. Where it and the program differ, one of them misreads a
document. `bench/compare` runs both on many streams.
"""
import sys

# "Record frame and kinds": the twenty-five pairs
PAIRS = """
0: 10 FAR, 20 ATR
1: 10 MIR, 20 MRR, 30 PCR, 40 HBR, 50 SBR, 60 PMR, 62 PGR, 63 PLR, 70 RDR, 80 SDR
2: 10 WIR, 20 WRR, 30 WCR
5: 10 PIR, 20 PRR
10: 30 TSR
15: 10 PTR, 15 MPR, 20 FTR
20: 10 BPS, 20 EPS
50: 10 GDR, 30 DTR
"""

# "Record frame and kinds", and #103: the bodies that are read; a body may stop at any field's end from the bar on
BODIES = {
    "MIR": "U4 U4 U1 C1 C1 C1 U2 C1 Cn Cn Cn Cn Cn |" + " Cn" * 25,
    "MRR": "U4 | C1 Cn Cn",
    "PCR": "U1 U1 U4 | U4 U4 U4 U4",
    "HBR": "head:U1 site:U1 bin:U2 U4 | pf:C1 Cn",
    "SBR": "head:U1 site:U1 bin:U2 U4 | pf:C1 Cn",
    "PIR": "head:U1 site:U1 |",
    "PRR": "head:U1 site:U1 flag:B1 U2 hard:U2 | soft:U2 I2 I2 U4 Cn Cn Bn",
    "WIR": "head:U1 group:U1 U4 | Cn",
    "WRR": "head:U1 group:U1 U4 U4 | U4 U4 U4 U4 Cn Cn Cn Cn Cn Cn",
}

# "Order of a stream": the stages through which a stream goes, none twice but those marked; every other kind is BODY
STAGES = {"FAR": 0, "ATR": 1, "MIR": 2, "RDR": 3, "SDR": 4, "MRR": 6}
LOT, BODY, ENDED = 2, 5, 6
REPEATED = {1, 4, BODY}

MOST_ROWS, MOST_PARTS, MOST_WAFERS, MOST_RESULTS, LONGEST = 1024, 32, 8, 4294967295, 65536


def pairs_of(text):
    """The table of pairs as a dictionary from (type, subtype) to the kind's name."""
    pairs = {}
    for line in text.split("\n"):
        if line:
            typ, kinds = line.split(":")
            for kind in kinds.split(","):
                sub, name = kind.split()
                pairs[int(typ), int(sub)] = name
    return pairs


def layout_of(text):
    """How many fields are required, and each field's name and size; size None is told by the field's first byte."""
    before, after = text.split("|")
    fields = []
    for word in (before + after).split():
        name, _, code = word.rpartition(":")
        fields.append((name, None if code[1] == "n" else int(code[1])))
    return len(before.split()), fields


KINDS = pairs_of(PAIRS)
TYPES = {typ for typ, _ in KINDS}
LAYOUTS = {kind: layout_of(text) for kind, text in BODIES.items()}


def kind_of(typ, sub):
    """A kind's name, "custom", or None where the pair is unknown."""
    if (typ, sub) in KINDS:
        return KINDS[typ, sub]
    if typ > 200 or (typ in TYPES and sub > 200):
        return "custom"
    return None


def values_of(body, layout, order):
    """The named fields of a body that has them, or None where the body doesn't fit."""
    required, fields = layout
    values, at, whole = {}, 0, 0
    for name, size in fields:
        if at == len(body):
            break
        end = at + (size or 1 + body[at])
        if end > len(body):
            return None
        if name:
            values[name] = int.from_bytes(body[at:end], order)
        at, whole = end, whole + 1
    return values if whole >= required and at == len(body) else None


def values_allowed(kind, values):
    """The value rules."""
    if kind in ("HBR", "SBR"):
        return values["bin"] <= 32767 and chr(values.get("pf", 32)) in "PF "
    if kind == "PIR":
        return values["head"] != 255
    if kind == "PRR":
        soft = values.get("soft", 65535)
        return (values["head"] != 255 and values["flag"] & 3 != 3 and values["hard"] <= 32767
                and (soft <= 32767 or soft == 65535))
    return True


def goes(stage, following):
    """Whether a stream at a stage may go on to another: never back, nothing past the MIR without it."""
    if following == stage:
        return stage in REPEATED
    return stage < following and (following <= LOT or stage >= LOT)


def first_refusal(rec):
    """The number for the first record, 0 where it is a FAR; "Order of checks", First record."""
    if len(rec) < 4:
        return 3
    if rec[2:4] != bytes([0, 10]):
        return 8
    if len(rec) != 6:
        return 3
    if rec[4] not in (1, 2):
        return 4
    if rec[:2] != (b"\0\2" if rec[4] == 1 else b"\2\0"):
        return 3
    return 0 if rec[5] == 4 else 5


class Lot:
    """A stream after its FAR: what was accepted so far."""

    def __init__(self, order):
        self.order, self.stage = order, STAGES["FAR"]
        self.parts, self.counts, self.results, self.pcr = set(), {}, 0, False
        self.wafers = []  # head and site group of each open one

    def refusal(self, head, body):
        """The number for a whole record, 0 where it is accepted; "Order of checks", Later records, after 3."""
        kind = kind_of(head[2], head[3])
        if kind is None:
            return 6
        stage = STAGES.get(kind, BODY)
        if not goes(self.stage, stage):
            return 8
        if kind in LAYOUTS:
            values = values_of(body, LAYOUTS[kind], self.order)
            if values is None or not values_allowed(kind, values):
                return 7
            number = self.take(kind, values)
            if number:
                return number
        self.stage = stage
        return 0

    def take(self, kind, values):
        """Refusals 9 to 14, 20, 22, 23 and 33, and what an accepted record changes."""
        if kind == "PIR":
            return self.open_part((values["head"], values["site"]))
        if kind == "PRR":
            return self.count_part((values["head"], values["site"]), values["hard"])
        if kind == "WIR":
            return self.open_wafer(values["head"], values["group"])
        if kind == "WRR":
            return self.close_wafer(values["head"], values["group"])
        if kind == "MRR":
            return 12 if self.parts else 33 if self.wafers else 0 if self.pcr else 20
        if kind == "PCR":
            self.pcr = True
        return 0

    def open_part(self, part):
        if part in self.parts:
            return 9
        if len(self.parts) == MOST_PARTS:
            return 11
        self.parts.add(part)
        return 0

    def count_part(self, part, hard):
        if part not in self.parts:
            return 10
        if self.results == MOST_RESULTS:
            return 14
        key = part + (hard,)
        # slot 0 alone, floor 1,024: what is free is what is still promised to it, so a row is had below the floor
        if key not in self.counts and len(self.counts) == MOST_ROWS:
            return 13
        self.counts[key] = self.counts.get(key, 0) + 1
        self.results += 1
        self.parts.remove(part)
        return 0

    def open_wafer(self, head, group):
        if any(head == other for other, _ in self.wafers):
            return 22
        if len(self.wafers) == MOST_WAFERS:
            return 23
        self.wafers.append((head, group))
        return 0

    def close_wafer(self, head, group):
        if (head, group) not in self.wafers:
            return 22
        self.wafers.remove((head, group))
        return 0

    def named(self, number):
        """What a refusal says beside its number and its record: 12 names the first of the open parts (#101)."""
        return ", head %d site %d" % sorted(self.parts)[0] if number == 12 else ""

    def lines(self):
        rows = sorted(self.counts.items())
        return "".join(f"HBR:{head}|{site}|{hard}|{count}\n" for (head, site, hard), count in rows)


def tally(stream):
    """What the program writes for a stream; "Tally program"."""
    if not stream:
        return "unfinished after record 0\n"
    number = first_refusal(stream[:6])
    if number:
        return f"refused {number} at record 1\n"
    lot, at, record = Lot("big" if stream[4] == 1 else "little"), 6, 1
    while at < len(stream):
        record += 1
        head = stream[at:at + 4]
        if len(head) < 4:
            return f"refused 3 at record {record}\n"
        end = at + 4 + int.from_bytes(head[:2], lot.order)
        if end - at > LONGEST:
            return f"too long at record {record}\n"
        number = 3 if end > len(stream) else lot.refusal(head, stream[at + 4:end])
        if number:
            return f"refused {number} at record {record}{lot.named(number)}\n"
        at = end
    return lot.lines() if lot.stage == ENDED else f"unfinished after record {record}\n"


if __name__ == "__main__":
    sys.stdout.write(tally(sys.stdin.buffer.read()))
