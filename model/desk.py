#!/usr/bin/env python3
"""The desk once more, written from documents 01 and 02 alone and with other means: sets and dictionaries, no proofs.

    python3 model/desk.py < crates/desk/stdin | diff - crates/desk/stdout

It shares no code with the crates. Where it and the desk differ, one of them misreads a document.
"""
import datetime
import re
import sys

SLOTS, ROWS, MOST_PARTS, MOST_RESULTS, MOST_BIN = 16, 1024, 32, 4294967295, 32767
MOST_WAFERS = 8
LONGEST_LINE, MOST_LENT = 140000, 4096
CARRY, FIRST, HEADER = 65539, 6, 4
COUNTED = "n"  # a C*n or B*n field: its first byte tells its length

# the fields of each body that is read: required, then optional
BODIES = {
    "MIR": ([4, 4, 1, 1, 1, 1, 2, 1] + [COUNTED] * 5, [COUNTED] * 25),
    "MRR": ([4], [1, COUNTED, COUNTED]),
    "PCR": ([1, 1, 4], [4] * 4),
    "HBR": ([1, 1, 2, 4], [1, COUNTED]),
    "SBR": ([1, 1, 2, 4], [1, COUNTED]),
    "PIR": ([1, 1], []),
    "PRR": ([1, 1, 1, 2, 2], [2, 2, 2, 4, COUNTED, COUNTED, COUNTED]),
    "WIR": ([1, 1, 4], [COUNTED]),
    "WRR": ([1, 1, 4, 4], [4] * 4 + [COUNTED] * 6),
}

PAIRS = {
    0: {10: "FAR", 20: "ATR"},
    1: {10: "MIR", 20: "MRR", 30: "PCR", 40: "HBR", 50: "SBR", 60: "PMR", 62: "PGR", 63: "PLR", 70: "RDR", 80: "SDR"},
    2: {10: "WIR", 20: "WRR", 30: "WCR"},
    5: {10: "PIR", 20: "PRR"},
    10: {30: "TSR"},
    15: {10: "PTR", 15: "MPR", 20: "FTR"},
    20: {10: "BPS", 20: "EPS"},
    50: {10: "GDR", 30: "DTR"},
}


def kind_of(typ, sub):
    """The kind of a pair, "custom", or None where it is unknown."""
    if sub in PAIRS.get(typ, {}):
        return PAIRS[typ][sub]
    return "custom" if typ > 200 or (typ in PAIRS and sub > 200) else None


def fields_of(body, required, optional):
    """The bytes of each field that a body has, or None where it is no such body."""
    at, fields = 0, []
    for n, size in enumerate(required + optional):
        if n >= len(required) and at == len(body):
            return fields
        if size == COUNTED:
            if at >= len(body):
                return None
            size = 1 + body[at]
        fields.append(body[at : at + size])
        at += size
        if at > len(body):
            return None
    return fields if at == len(body) else None


def body_fits(kind, body, order):
    """The table of bodies, and the value rules."""
    if kind not in BODIES:
        return True
    fields = fields_of(body, *BODIES[kind])
    if fields is None:
        return False
    number = lambda a, b: int.from_bytes(body[a:b], order)
    if kind in ("HBR", "SBR"):
        return number(2, 4) <= MOST_BIN and (len(fields) < 5 or body[8:9] in (b"P", b"F", b" "))
    if kind == "PIR":
        return body[0] != 255
    if kind == "PRR":
        soft = len(fields) < 6 or number(7, 9) <= MOST_BIN or number(7, 9) == 65535
        return body[0] != 255 and body[2] & 3 != 3 and number(5, 7) <= MOST_BIN and soft
    return True


def place_after(place, kind):
    """The order of a stream: the next place, or None where the kind is out of place."""
    if place == "far":
        return {"ATR": "far", "MIR": "mir"}.get(kind)
    if place == "end" or kind in ("FAR", "ATR", "MIR"):
        return None
    if kind == "RDR":
        return "rdr" if place == "mir" else None
    if kind == "SDR":
        return "sdr" if place != "body" else None
    return "end" if kind == "MRR" else "body"


class Session:
    def __init__(self, floor):
        self.floor, self.place, self.order = floor, "start", "little"
        self.parts, self.pcr, self.results, self.rows = set(), False, 0, {}
        self.wafers = {}  # of each head whose wafer is open, its site group
        self.held = 0  # how many bytes the slot's carry holds: 0 in a slot just opened

    def size(self, data, at):
        """How long the record is that stands there, or None where it is not whole: the first has six bytes."""
        size = FIRST
        if self.place != "start":
            if len(data) - at < HEADER:
                return None
            size = HEADER + int.from_bytes(data[at : at + 2], self.order)
        return size if len(data) - at >= size else None

    def first(self, rec):
        if len(rec) < 4:
            return 3
        if (rec[2], rec[3]) != (0, 10):
            return 8
        if len(rec) != 6:
            return 3
        if rec[4] not in (1, 2):
            return 4
        order = "big" if rec[4] == 1 else "little"
        if int.from_bytes(rec[:2], order) != 2:
            return 3
        if rec[5] != 4:
            return 5
        self.order, self.place = order, "far"
        return 0

    def later(self, rec, spare):
        if len(rec) < 4 or int.from_bytes(rec[:2], self.order) != len(rec) - 4:
            return 3
        kind, body = kind_of(rec[2], rec[3]), rec[4:]
        if kind is None:
            return 6
        place = place_after(self.place, kind)
        if place is None:
            return 8
        if not body_fits(kind, body, self.order):
            return 7
        answer = 0
        if kind == "PIR":
            answer = self.opens((body[0], body[1]))
        elif kind == "PRR":
            answer = self.closes((body[0], body[1]), int.from_bytes(body[5:7], self.order), spare)
        elif kind == "WIR":
            answer = self.opens_wafer(body[0], body[1])
        elif kind == "WRR":
            answer = self.closes_wafer(body[0], body[1])
        elif kind == "MRR" and self.parts:
            answer = "12 %d %d" % min(self.parts)
        elif kind == "MRR" and self.wafers:
            answer = 33
        elif kind == "MRR" and not self.pcr:
            answer = 20
        if answer == 0:
            self.place, self.pcr = place, self.pcr or kind == "PCR"
        return answer

    def opens(self, part):
        if part in self.parts:
            return 9
        if len(self.parts) == MOST_PARTS:
            return 11
        self.parts.add(part)
        return 0

    def closes(self, part, bin_number, spare):
        key = part + (bin_number,)
        if part not in self.parts:
            return 10
        if self.results == MOST_RESULTS:
            return 14
        if key not in self.rows and len(self.rows) >= self.floor and not spare:
            return 13
        self.rows[key] = self.rows.get(key, 0) + 1
        self.results += 1
        self.parts.discard(part)
        return 0

    def opens_wafer(self, head, group):
        if head in self.wafers:
            return 22
        if len(self.wafers) == MOST_WAFERS:
            return 23
        self.wafers[head] = group
        return 0

    def closes_wafer(self, head, group):
        if self.wafers.get(head) != group:
            return 22
        del self.wafers[head]
        return 0


class House:
    def __init__(self):
        self.slots = [None] * SLOTS
        self.carries = {}  # of each slot, the bytes that its last feed left in its carry

    def sessions(self):
        return [s for s in self.slots if s]

    def free(self):
        return ROWS - sum(len(s.rows) for s in self.sessions())

    def promised(self):
        return sum(max(0, s.floor - len(s.rows)) for s in self.sessions())

    def missing(self, slot):
        """1 and 2, of a call that needs an open slot."""
        return 1 if slot >= SLOTS else 0 if self.slots[slot] else 2

    def open(self, slot, floor):
        if slot >= SLOTS:
            return 1
        if floor > ROWS:
            return 16
        if self.slots[slot]:
            return 2
        if floor > self.free() - self.promised():
            return 13
        self.slots[slot] = Session(floor)
        return 0

    def close(self, slot):
        refused = self.missing(slot)
        if not refused:
            self.slots[slot] = None
        return refused

    def deliver(self, slot, rec):
        refused = self.missing(slot)
        if refused:
            return refused
        session = self.slots[slot]
        if session.place == "start":
            return session.first(rec)
        return session.later(rec, self.free() > self.promised())

    def feed(self, slot, length, chunk):
        """The answer, and how many bytes of the chunk were taken: none past the refused record."""
        refused = self.missing(slot) or (17 if length != CARRY else 0)
        if refused:
            return f"{refused} 0"
        session = self.slots[slot]
        before = session.held
        data = self.carries.get(slot, b"")[:before] + chunk
        at, answer, end = 0, 0, len(data)
        while answer == 0 and (size := session.size(data, at)) is not None:
            answer = self.deliver(slot, data[at : at + size])
            if answer == 0:
                at += size
            else:  # the record stays, and with it what the carry held behind it
                end = max(at + size, before)
        self.carries[slot] = data[at:end]
        session.held = end - at
        assert session.held <= CARRY
        return f"{answer} {end - before}"

    def end(self, slot):
        return self.missing(slot) or (3 if self.slots[slot].held else 0)

    def report(self, slot, length):
        refused = self.missing(slot)
        if refused:
            return refused
        rows = sorted(self.slots[slot].rows.items())
        if length < len(rows):
            return 17
        return " ".join([f"0 {len(rows)}"] + ["%d/%d/%d=%d" % (key + (count,)) for key, count in rows])


LINE_PAIRS = {"PCR": (1, 30), "HBR": (1, 40), "SBR": (1, 50), "WIR": (2, 10), "WRR": (2, 20)}
NOT_COUNTED = 4294967295  # the missing value of the last four counts of PCR and of WRR
NAME = re.compile(rb"[\x20-\x7b\x7d\x7e]*")
LINE = re.compile(rb"(PCR|HBR|SBR|WIR|WRR):([^\r\n]*)(\r\n|\r|\n)?")
ORDERS = {1: "big", 2: "little"}

# the fields of a wafer's record as its body has them, and which of them stands at each place of its line
WAFER_FIELDS = {
    "WIR": ["head", "group", "time", "name"],
    "WRR": ["head", "group", "time", "parts"] + ["count"] * 4 + ["name"] * 6,
}
WAFER_LINES = {"WIR": [0, 2, 1, 3], "WRR": [0, 2, 3, 8, 1, 4, 5, 6, 7, 9, 10, 11, 12, 13]}
# of each field that is a number: its size and its greatest value in text; and the missing value of those that have one
WAFER_NUMBERS = {"head": (1, 255), "group": (1, 254), "parts": (4, 4294967295), "count": (4, NOT_COUNTED - 1)}
WAFER_GAPS = {"group": b"\xff", "count": b"\xff" * 4, "name": b"\0"}

EPOCH = datetime.datetime(1970, 1, 1)
MONTHS = b"JAN FEB MAR APR MAY JUN JUL AUG SEP OCT NOV DEC".split()
DATE = re.compile(rb"([0-9]{1,2}):([0-9]{2}):([0-9]{2}) ([0-9]{1,2})-([A-Z]{3})-([0-9]{4})")

HELP = """\
# fresh                        0
# open SLOT FLOOR              N
# deliver SLOT HEX             N, or: 12 HEAD SITE
# report SLOT LENGTH           N, or: 0 COUNT H/S/B=C H/S/B=C ..
# close SLOT                   N
# figures                      N, or: 0 FREE PROMISED
# feed SLOT LENGTH HEX         N TAKEN, or: 12 HEAD SITE TAKEN
# end SLOT                     N
# write ORDER AT LENGTH HEX    N OUT, or: 0 BYTES OUT
# read ORDER AT LENGTH HEX     N OUT, or: 0 BYTES OUT
# help                         these lines"""


def date_text(seconds):
    """A time as #103 writes it."""
    t = EPOCH + datetime.timedelta(seconds=seconds)
    clock = b"%d:%02d:%02d" % (t.hour, t.minute, t.second)
    return clock + b" %d-%s-%04d" % (t.day, MONTHS[t.month - 1], t.year)


def date_bytes(text, order):
    """The four bytes of a date; a ValueError where it is none, is time 0, or is past the last time of four bytes."""
    found = DATE.fullmatch(text)
    if not found:
        raise ValueError
    hour, minute, second, day, year = (int(found[n]) for n in (1, 2, 3, 4, 6))
    t = datetime.datetime(year, MONTHS.index(found[5]) + 1, day, hour, minute, second)
    seconds = (t - EPOCH) // datetime.timedelta(seconds=1)
    if not 1 <= seconds <= 4294967295 or date_text(seconds) != text:
        raise ValueError
    return seconds.to_bytes(4, order)


def wafer_texts(kind, body, order):
    """The fields of a wafer's line, or the number that it is refused with: 21, 19."""
    texts = [b""] * len(WAFER_FIELDS[kind])
    if not any(body[2:6]):
        return 21
    for at, (form, data) in enumerate(zip(WAFER_FIELDS[kind], fields_of(body, *BODIES[kind]))):
        if form == "name":
            texts[at] = data[1:]
            if not NAME.fullmatch(data[1:]):
                return 19
        elif data != WAFER_GAPS.get(form):
            value = int.from_bytes(data, order)
            texts[at] = date_text(value) if form == "time" else b"%d" % value
    return [texts[at] for at in WAFER_LINES[kind]]


def line_of(order, rec):
    """The line of a record, or the number that it is refused with: 4, 3, 6, 7, 21, 19."""
    if order not in ORDERS:
        return 4
    if len(rec) < 4 or int.from_bytes(rec[:2], ORDERS[order]) != len(rec) - 4:
        return 3
    kind, body = kind_of(rec[2], rec[3]), rec[4:]
    if kind not in LINE_PAIRS:
        return 6
    if not body_fits(kind, body, ORDERS[order]):
        return 7
    fields = wafer_texts(kind, body, ORDERS[order]) if kind in WAFER_LINES else count_texts(kind, body, ORDERS[order])
    if isinstance(fields, int):
        return fields
    return kind.encode() + b":" + b"|".join(fields).rstrip(b"|") + b"\n"


def count_texts(kind, body, order):
    """The fields of a count line, or 19."""
    decimal = lambda a, b: b"%d" % int.from_bytes(body[a:b], order)
    fields = [b"", b""] if body[0] == 255 else [b"%d" % body[0], b"%d" % body[1]]
    if kind == "PCR":
        counts = [decimal(at, at + 4) for at in range(2, len(body), 4)]
        fields += counts[:1] + [b"" if int(n) == NOT_COUNTED else n for n in counts[1:]]
    else:
        name = body[10:]
        if not NAME.fullmatch(name):
            return 19
        fields += [decimal(2, 4), decimal(4, 8), body[8:9].replace(b" ", b""), name]
    return fields


def in_range(text, most, size, order):
    """The bytes of a number in text."""
    if not re.fullmatch(rb"[0-9]{1,10}", text) or int(text) > most:
        raise ValueError
    return int(text).to_bytes(size, order)


def wafer_field(form, text, order):
    """The bytes of a field of a wafer's line; a ValueError where it is none."""
    if form == "time":
        return date_bytes(text, order)
    if form != "name":
        size, most = WAFER_NUMBERS[form]
        return in_range(text, most, size, order)
    if not NAME.fullmatch(text):
        raise ValueError
    return bytes([len(text[:255])]) + text[:255]


def wafer_body(kind, fields, order):
    """The body that the fields of a wafer's line make; a ValueError where they are none."""
    forms, needed = WAFER_FIELDS[kind], len(BODIES[kind][0])
    if len(fields) > len(forms):
        raise ValueError
    given = {at: text for at, text in zip(WAFER_LINES[kind], fields) if text}
    parts = []
    for at, form in enumerate(forms[: max(needed, max(given, default=0) + 1)]):
        if at not in given and form not in WAFER_GAPS:
            raise ValueError
        parts.append(wafer_field(form, given[at], order) if at in given else WAFER_GAPS[form])
    return b"".join(parts)


def count_body(kind, fields, order):
    """The body that a count line's fields make; a ValueError where they are none."""
    if kind == "PCR":
        columns = [(4, NOT_COUNTED)] + [(4, NOT_COUNTED - 1)] * 4
    else:
        columns = [(2, MOST_BIN), (4, 4294967295)]
    head, site, *rest = fields + [b""] * 7
    if (head == b"") != (site == b""):
        raise ValueError
    sites = b"\xff\xff" if head == b"" else in_range(head, 254, 1, order) + in_range(site, 255, 1, order)
    if len(fields) > (7 if kind == "PCR" else 6):
        raise ValueError
    parts = []  # each field's bytes and, where it is missing, None
    for (size, most), text in zip(columns, rest):
        parts.append(None if text == b"" else in_range(text, most, size, order))
    if None in (parts[:1] if kind == "PCR" else parts):
        raise ValueError
    blank = [b"\xff" * 4] * 7
    if kind != "PCR":
        letter, name = rest[2], rest[3]
        if letter and letter[:1] not in (b"P", b"F") or not NAME.fullmatch(name):
            raise ValueError
        parts += [letter[:1] or None, bytes([len(name[:255])]) + name[:255] if name else None]
        blank = [b"", b"", b" ", b""]
    while parts[-1] is None:
        parts.pop()
    return sites + b"".join(gap if part is None else part for part, gap in zip(parts, blank))


def record_of(order, line):
    """The record of a line, or the number that it is refused with: 4, 18."""
    if order not in ORDERS:
        return 4
    found = LINE.fullmatch(line)
    if not found:
        return 18
    kind = found[1].decode()
    try:
        make = wafer_body if kind in WAFER_LINES else count_body
        body = make(kind, found[2].split(b"|"), ORDERS[order])
    except ValueError:
        return 18
    return len(body).to_bytes(2, ORDERS[order]) + bytes(LINE_PAIRS[kind]) + body


def placed(made, at, length):
    """What a lent output of so many bytes is after bytes were placed in it, or not: 17 last."""
    out = bytearray(b"\xaa" * length)
    if isinstance(made, bytes):
        if at + len(made) > length:
            made = 17
        else:
            out[at : at + len(made)] = made
            made = f"0 {len(made)}"
    return f"{made} {out.hex() or '-'}"


def number(word):
    """Any count of digits is a number. No limit of the desk has thirty, so the first thirty that count are enough."""
    if not re.fullmatch(rb"[0-9]+", word):
        raise ValueError
    return int(word.lstrip(b"0")[:30] or b"0")


def hex_bytes(word):
    if word == b"-":
        return b""
    if not re.fullmatch(rb"([0-9a-f]{2})+", word):
        raise ValueError
    return bytes.fromhex(word.decode())


def answer(house, words):
    """What a call answers; a ValueError where the words are no call."""
    name, given = words[0], words[1:]
    if name == b"help" and not given:
        return HELP
    if name == b"figures" and not given:
        return f"0 {house.free()} {house.promised()}"
    if name == b"close" and len(given) == 1:
        return house.close(number(given[0]))
    if name == b"open" and len(given) == 2:
        return house.open(number(given[0]), number(given[1]))
    if name == b"report" and len(given) == 2:
        return house.report(number(given[0]), number(given[1]))
    if name == b"deliver" and len(given) == 2:
        return house.deliver(number(given[0]), hex_bytes(given[1]))
    if name == b"feed" and len(given) == 3:
        return house.feed(number(given[0]), number(given[1]), hex_bytes(given[2]))
    if name == b"end" and len(given) == 1:
        return house.end(number(given[0]))
    if name in (b"write", b"read") and len(given) == 4:
        order, at, length = map(number, given[:3])
        if length > MOST_LENT:
            raise ValueError
        make = line_of if name == b"write" else record_of
        return placed(make(order, hex_bytes(given[3])), at, length)
    raise ValueError


def main():
    house = House()
    lines = sys.stdin.buffer.read().split(b"\n")
    if lines[-1] == b"":
        lines.pop()
    for line in lines:
        if len(line) <= LONGEST_LINE and (line == b"" or line.startswith(b"#")):
            said = line
        elif line == b"fresh":
            house, said = House(), b"0"
        else:
            try:
                if len(line) > LONGEST_LINE:
                    raise ValueError
                said = str(answer(house, line.split(b" "))).encode()
            except ValueError:
                said = b"?"
        sys.stdout.buffer.write(said + b"\n")


if __name__ == "__main__":
    main()
