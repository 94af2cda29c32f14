#!/usr/bin/env python3
"""Makes the samples beside it: small lots as a tester writes them, NAME.stdf, and what the tally program must write,
NAME.tally.

    samples/make.py              writes them anew; the same bytes each time
    samples/check                holds ./run tally to them

    wafer     sort of one wafer, 4 sites, low byte first (CPU_TYPE 2)
    final     final test, 2 heads of 2 sites, high byte first (CPU_TYPE 1); failed parts tested once more
    damaged   final, with one bit of a part's hardware bin turned over
    cut       wafer, its end lost on the way
    open      final, without the results of its last two parts
    wafers    sort of three wafers, two of them at once on two heads, high byte first
    lost      wafers, without the result of its last wafer

What a lot's tally is comes from the maps below, from which the parts are made: no stream is read here. Fields are in
the order of the STDF V4 specification; an optional end is left off where a tester leaves it off.
"""
import collections
import os
import struct

HERE = os.path.dirname(os.path.abspath(__file__))
BEGAN = 711879782  # 8:23:02 23-JUL-1992
NAMES = {1: "PASSED", 2: "OPENS", 3: "SHORTS", 5: "LEAKAGE", 6: "SPEED"}
# test number, name, what it measures, limits, units, and the hardware bin of a part that fails it
MEASURED = [(1001, "opens_pin4", -0.62, -0.9, -0.3, "V", 2), (1002, "shorts_pin4", 0.41, 0.1, 0.9, "V", 3),
            (2001, "leakage_vdd", 0.0021, 0.0, 0.01, "A", 5)]
SPEED = (3001, "speed_50MHz", 6)

# a bin a die, rows of the wafer from the top
WAFER = """
. . 1 1 . .
. 1 1 5 1 .
1 1 2 1 1 6
1 1 1 1 5 1
. 1 3 1 1 .
. . 1 1 . .
"""

# head and id of each wafer and the bin of each die, in the order in which two sites touch them; a line of its own where
# the wafers before it have ended
WAFERS = """
1/W01: 1 1 5 1 1 2
2/W02: 1 6 1 1 1 1

1/W03: 1 1 1 3 1
"""

# head, site and bin of each part, a line a load of the handler; the last two lines are failed parts tested again
LOADS = """
1/1:1 1/2:1 2/1:1 2/2:5
1/1:1 1/2:6 2/1:1 2/2:1
1/1:2 1/2:1 2/1:1 2/2:1
1/1:1 1/2:1 2/1:5 2/2:1
1/1:1 1/2:1 2/1:1
1/1:1 1/2:6
2/1:1
"""
AGAIN = 2  # loads that are tested again


def counted(data):
    """A C*n or B*n field."""
    data = data.encode("ascii") if isinstance(data, str) else data
    return bytes([len(data)]) + data


class Lot:
    """A list of records, and the parts that were put in it."""

    def __init__(self, order):
        self.order, self.records, self.tally = order, [], collections.Counter()

    def add(self, kind, codes, *values):
        """A record: a code of `struct` a value, `s` for one character, `n` for a counted field."""
        body = b""
        for code, value in zip(codes, values, strict=True):
            if code == "n":
                body += counted(value)
            elif code == "s":
                body += value.encode("ascii")
            else:
                body += struct.pack(self.order + code, value)
        self.records.append(struct.pack(self.order + "HBB", len(body), *kind) + body)

    def bins(self, part=None):
        """The hardware bin of every part so far, or of those of one head and site."""
        return [key[2] for key in sorted(self.tally.elements()) if part in (None, key[:2])]

    def text(self):
        rows = sorted(self.tally.items())
        return "".join("HBR:%d|%d|%d|%d\n" % (key + (count,)) for key, count in rows)

    def bytes(self):
        return b"".join(self.records)


# ---- records

def add_start(lot, cpu, lot_id, station, mode, strings):
    lot.add((0, 10), "BB", cpu, 4)
    lot.add((0, 20), "In", BEGAN + 90000, "bin_filter 7,9-12")
    fixed = (BEGAN - 483, BEGAN, station, mode, " ", " ", 65535, " ")
    named = (lot_id, "80386", "akbar", "J971", "80386HOT") + strings
    lot.add((1, 10), "IIBsssHs" + "n" * len(named), *fixed, *named)


def add_sites(lot, head, sites, handler):
    """SDR: the sites of a head and what it is fitted with."""
    fitted = (handler, "H-%d" % head, "probe card", "PC-17", "load board", "LB-3")
    lot.add((1, 80), "BBB" + "B" * len(sites) + "n" * 6, head, head, len(sites), *sites, *fitted)


def add_tests(lot, head, site, fails, first):
    """The PTRs and the FTR of a part; limits and units stand in the first PTR of each test."""
    for number, name, value, low, high, units, bin_failed in MEASURED:
        failed = fails == bin_failed
        result = high * 3 if failed else value + site / 1024
        fixed = (number, head, site, 128 if failed else 0, 0, result, name if first else "", "")
        limits = (14, 0, 0, 0, low, high, units) if first else ()
        lot.add((15, 10), "IBBBBfnn" + "Bbbbffn"[:len(limits)], *fixed, *limits)
    number, name, bin_failed = SPEED
    lot.add((15, 20), "IBBBBI", number, head, site, 128 if fails == bin_failed else 0, 254, 4096)


def add_result(lot, part, hard, x, y, name, flag):
    """PRR: a part that failed has bit 3 of PART_FLG, one that was tested before bit 0."""
    lot.tally[part + (hard,)] += 1
    flag |= 0 if hard == 1 else 8
    lot.add((5, 20), "BBBHHHhhInnn", *part, flag, 4, hard, hard * 10, x, y, 350 + 7 * hard, name, "", b"")


def add_counts(lot, head, site, parts, again):
    """HBR, SBR and PCR for one site, or for all with head 255."""
    for hard in sorted(set(parts)):
        letter, count = "P" if hard == 1 else "F", parts.count(hard)
        lot.add((1, 40), "BBHIsn", head, site, hard, count, letter, NAMES[hard])
        lot.add((1, 50), "BBHIsn", head, site, hard * 10, count, letter, NAMES[hard])
    lot.add((1, 30), "BBIIIII", head, site, len(parts), again, 0, parts.count(1), 4294967295)


def add_end(lot, again):
    """The summary: tests, then counts for each site and for all, then MRR."""
    everything = lot.bins()
    for number, name, *_, bin_failed in MEASURED:
        failed = everything.count(bin_failed)
        lot.add((10, 30), "BBsIIIInnn", 255, 255, "P", number, len(everything), failed, 0, name, "", "")
    for head, site in sorted({key[:2] for key in lot.tally}):
        add_counts(lot, head, site, lot.bins((head, site)), 4294967295)
    add_counts(lot, 255, 255, everything, again)
    lot.add((1, 20), "Isnn", BEGAN + 14050, "H", "Handler problems", "Yield Alarm")


# ---- lots

def wafer_lot():
    lot = Lot("<")
    add_start(lot, 2, "A3002B", 1, "P", ("6A", "7", "Sandy", "IG900", "B3.1", "sort", "25"))
    add_sites(lot, 1, (0, 1, 2, 3), "prober")
    lot.add((1, 60), "HHnnnBB", 1, 0, "CH4", "PIN4", "VDD", 1, 0)
    lot.add((2, 30), "fffBshhss", 150.0, 5.1, 4.8, 3, "D", 3, 3, "R", "D")
    lot.add((2, 10), "BBIn", 1, 255, BEGAN, "W01")
    rows = [row.split() for row in WAFER.split("\n")[1:-1]]
    dies = [(x, y, int(die)) for y, row in enumerate(rows) for x, die in enumerate(row) if die != "."]
    for at in range(0, len(dies), 4):
        touched = list(enumerate(dies[at:at + 4]))
        for site, _ in touched:
            lot.add((5, 10), "BB", 1, site)
        for site, die in touched:
            add_tests(lot, 1, site, die[2], at + site == 0)
        for site, (x, y, hard) in touched:
            add_result(lot, (1, site), hard, x, y, "W01-%02d" % (at + site + 1), 0)
    good = sum(die[2] == 1 for die in dies)
    counts = (len(dies), 4294967295, 0, good, 4294967295)
    lot.add((2, 20), "BBIIIIIInnn", 1, 255, BEGAN + 9580, *counts, "W01", "131", "F54")
    add_end(lot, 0)
    return lot


def sort_wafers(lot, wafers, began):
    """WIRs, the parts of each head in turn, and WRRs in an order of their own; a head's site group has its number."""
    for head, name, _ in wafers:
        lot.add((2, 10), "BBIn", head, head, began, name)
    for at in range(0, max(len(dies) for *_, dies in wafers), 2):
        for head, name, dies in wafers:
            touched = list(enumerate(dies[at:at + 2]))
            for site, _ in touched:
                lot.add((5, 10), "BB", head, site)
            for site, hard in touched:
                add_tests(lot, head, site, hard, at + site == 0)
                add_result(lot, (head, site), hard, at + site, 0, "%s-%d" % (name, at + site + 1), 0)
    for head, name, dies in reversed(wafers):
        counts = (len(dies), 0, 0, dies.count(1), 4294967295)
        lot.add((2, 20), "BBIIIIIIn", head, head, began + 9580, *counts, name)


def wafers_lot():
    lot = Lot(">")
    add_start(lot, 1, "A3002C", 3, "P", ("6A",))
    for head in (1, 2):
        add_sites(lot, head, (0, 1), "prober")
    for turn, group in enumerate(WAFERS.strip().split("\n\n")):
        wafers = [(int(line[0]), line[2:5], [int(die) for die in line[6:].split()]) for line in group.split("\n")]
        sort_wafers(lot, wafers, BEGAN + 10000 * turn)
    add_end(lot, 0)
    return lot


def final_lot():
    lot = Lot(">")
    add_start(lot, 1, "A3002B", 2, "P", ("6A",))
    lot.add((1, 70), "HHH", 2, 5, 6)  # bins 5 and 6 are tested again
    for head in (1, 2):
        add_sites(lot, head, (1, 2), "handler")
    loads = [[(int(word[0]), int(word[2]), int(word[4:])) for word in load.split()] for load in LOADS.split("\n")[1:-1]]
    failed = []
    for turn, parts in enumerate(loads):
        again = turn >= len(loads) - AGAIN
        for head, site, _ in parts:
            lot.add((5, 10), "BB", head, site)
        for head, site, hard in reversed(parts):  # the sites end in an order of their own
            name = failed.pop(0) if again else "%d-%d-%d" % (turn + 1, head, site)
            add_tests(lot, head, site, hard, turn == 0)
            add_result(lot, (head, site), hard, -32768, -32768, name, 1 if again else 0)
            if hard in (5, 6) and not again:
                failed.append(name)
        lot.add((50, 30), "n", "load %d done" % (turn + 1))
    add_end(lot, 3)
    return lot


def damaged():
    """The tenth part's hardware bin, at byte 9 of its PRR, has its highest bit turned over: there is no such bin."""
    lot = final_lot()
    at = [i for i, rec in enumerate(lot.records) if rec[2:4] == bytes((5, 20))][9]
    rec = lot.records[at]
    lot.records[at] = rec[:9] + bytes([rec[9] ^ 128]) + rec[10:]
    return lot.bytes(), "refused 7 at record %d\n" % (at + 1)


def cut():
    """The last bytes of the wafer's lot are missing, so that its last record but one is not whole."""
    lot = wafer_lot()
    return lot.bytes()[:-len(lot.records[-1]) - 3], "refused 3 at record %d\n" % (len(lot.records) - 1)


def left_open():
    """The last two parts have no PRR, so that both are open at the MRR: it is refused, and the smaller is named."""
    lot = final_lot()
    gone = [i for i, rec in enumerate(lot.records) if rec[2:4] == bytes((5, 20))][-2:]
    part = min(tuple(lot.records[i][4:6]) for i in gone)
    lot.records = [rec for i, rec in enumerate(lot.records) if i not in gone]
    return lot.bytes(), "refused 12 at record %d, head %d site %d\n" % (len(lot.records), *part)


def lost():
    """The last wafer has no WRR, so that it is open at the MRR, and no part is."""
    lot = wafers_lot()
    del lot.records[max(i for i, rec in enumerate(lot.records) if rec[2:4] == bytes((2, 20)))]
    return lot.bytes(), "refused 33 at record %d\n" % len(lot.records)


def write(name, stream, said):
    with open(os.path.join(HERE, name + ".stdf"), "wb") as out:
        out.write(stream)
    with open(os.path.join(HERE, name + ".tally"), "w") as out:
        out.write(said)


if __name__ == "__main__":
    for name, lot in (("wafer", wafer_lot()), ("final", final_lot()), ("wafers", wafers_lot())):
        write(name, lot.bytes(), lot.text())
    write("damaged", *damaged())
    write("cut", *cut())
    write("open", *left_open())
    write("lost", *lost())
