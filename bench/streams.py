"""Streams to compare two tally programs on: lots that are right, and lots damaged in the ways that streams are.

`stream(seed, number)` gives one, the same for the same two numbers. Every damage is a function of its own below: it
takes the random numbers and the records, or the bytes, and changes them. Nothing here judges a stream.
"""
import random

SWAPPED = {"little": "big", "big": "little"}
ORDERS = ("little", "big")
FAR = {"little": bytes([2, 0, 0, 10, 2, 4]), "big": bytes([0, 2, 0, 10, 1, 4])}

ATR, MIR, MRR, PCR, HBR, SBR, RDR, SDR = (0, 20), (1, 10), (1, 20), (1, 30), (1, 40), (1, 50), (1, 70), (1, 80)
WIR, WRR, PIR, PRR = (2, 10), (2, 20), (5, 10), (5, 20)
# kinds whose bodies aren't read and whose place in the body isn't judged, custom ones last
FREE = [(1, 60), (1, 62), (1, 63), (2, 30), (10, 30), (15, 10), (15, 15), (15, 20), (20, 10), (20, 20), (50, 10),
        (50, 30), (201, 0), (255, 255), (0, 201), (50, 201), (1, 255), (2, 201), (15, 240)]
READ = [MIR, MRR, PCR, HBR, SBR, WIR, WRR, PIR, PRR]
# pairs beside the borders of known, custom and unknown
EDGES = FREE + READ + [ATR, RDR, SDR, (0, 10), (3, 201), (3, 10), (180, 10), (180, 201), (181, 0), (200, 0), (200, 255),
                       (0, 30), (1, 90), (5, 30), (10, 10), (15, 30), (50, 20), (4, 4)]
EDGES += [(typ, sub) for typ in (0, 1, 2, 5, 10, 15, 20, 50) for sub in (200, 201)]
HEADS, SITES = (0, 1, 1, 1, 2, 2, 254), (0, 1, 1, 2, 3, 255)
WAFER_HEADS, GROUPS = (0, 1, 1, 2, 3, 254, 255), (0, 1, 1, 2, 255, 255)
BINS = (0, 1, 1, 1, 2, 5, 6, 32767)
BORDERS = (0, 1, 255, 256, 32767, 32768, 65534, 65535)


def record(order, pair, body):
    return len(body).to_bytes(2, order) + bytes(pair) + body


def u2(order, n):
    return n.to_bytes(2, order)


def text(rng):
    """A counted field, now and then a long one."""
    length = rng.choice((0, 0, 1, 3, 5, 9, 255)) if rng.random() < 0.2 else rng.randrange(6)
    return bytes([length]) + rng.randbytes(length)


def texts(rng, count):
    return [text(rng) for _ in range(count)]


def some(rng, fields):
    """A required start and any number of the optional fields after it."""
    return b"".join(fields[:rng.randint(1, len(fields))])


# ---- bodies that fit

def mir(rng, order):
    return rng.randbytes(15) + b"".join(texts(rng, rng.choice((5, 5, 6, 12, 29, 30))))


def mrr(rng, order):
    return some(rng, [rng.randbytes(4), b"P", *texts(rng, 2)])


def pcr(rng, order):
    return rng.randbytes(rng.choice((6, 10, 14, 18, 22)))


def bin_count(rng, order):
    start = rng.randbytes(2) + u2(order, rng.choice(BINS)) + rng.randbytes(4)
    return some(rng, [start, rng.choice((b"P", b"F", b" ")), text(rng)])


def pir(part):
    return bytes(part)


def prr(rng, order, part, hard):
    flag = rng.choice((0, 8, 16, 1, 2, 9, 10, 4, 252, 254))
    start = bytes(part) + bytes([flag]) + rng.randbytes(2) + u2(order, hard)
    soft = u2(order, rng.choice((0, 1, 32767, 65535)))
    numbers = [rng.randbytes(2), rng.randbytes(2), rng.randbytes(4)]
    return some(rng, [start, soft, *numbers, *texts(rng, 3)])


def wir(rng, wafer):
    return some(rng, [bytes(wafer) + rng.choice((bytes(4), rng.randbytes(4))), text(rng)])


def wrr(rng, wafer):
    counts = [rng.choice((b"\xff" * 4, rng.randbytes(4))) for _ in range(4)]
    return some(rng, [bytes(wafer) + rng.randbytes(8), *counts, *texts(rng, 6)])


# ---- lots that are right

def lot_start(rng, order):
    records = [FAR[order]]
    records += [record(order, ATR, rng.randbytes(rng.randrange(9))) for _ in range(rng.choice((0, 0, 1, 2)))]
    records.append(record(order, MIR, mir(rng, order)))
    records += [record(order, RDR, rng.randbytes(rng.randrange(9))) for _ in range(rng.randrange(2))]
    records += [record(order, SDR, rng.randbytes(rng.randrange(9))) for _ in range(rng.choice((0, 0, 1, 3)))]
    return records


def lot_end(rng, order, opened, wafers):
    """Closes what is open, with the PCR that an MRR asks for."""
    records = [record(order, PRR, prr(rng, order, part, rng.choice(BINS))) for part in opened]
    records += [record(order, WRR, wrr(rng, wafer)) for wafer in wafers]
    rng.shuffle(records)
    records.append(record(order, PCR, pcr(rng, order)))
    records.append(record(order, MRR, mrr(rng, order)))
    return records


def wafer_step(rng, order, wafers):
    """A WIR or a WRR that is allowed there."""
    head = rng.choice(WAFER_HEADS)
    if len(wafers) < 8 and head not in [wafer[0] for wafer in wafers]:
        wafers.append((head, rng.choice(GROUPS)))
        return record(order, WIR, wir(rng, wafers[-1]))
    return record(order, WRR, wrr(rng, wafers.pop(rng.randrange(len(wafers)))))


def body_step(rng, order, opened, wafers):
    """One record of the body that is allowed there."""
    turn = rng.random()
    if turn < 0.3 and len(opened) < 32:
        part = (rng.choice(HEADS), rng.choice(SITES))
        if part not in opened:
            opened.append(part)
            return record(order, PIR, pir(part))
    if turn < 0.6 and opened:
        part = opened.pop(rng.randrange(len(opened)))
        return record(order, PRR, prr(rng, order, part, rng.choice(BINS)))
    if turn < 0.7:
        return record(order, rng.choice((HBR, SBR)), bin_count(rng, order))
    if turn < 0.75:
        return record(order, PCR, pcr(rng, order))
    if turn < 0.87:
        return wafer_step(rng, order, wafers)
    return record(order, rng.choice(FREE), rng.randbytes(rng.choice((0, 1, 2, 8, 30))))


def plain_lot(rng, order):
    opened, wafers = [], []
    records = lot_start(rng, order)
    records += [body_step(rng, order, opened, wafers) for _ in range(rng.choice((0, 1, 2, 5, 10, 20, 40)))]
    return records + lot_end(rng, order, opened, wafers)


def lot_of_parts(rng, order):
    """31 to 34 parts open at once: the 33rd is one too many."""
    opened = [(site // 16, site % 16) for site in range(rng.choice((31, 32, 33, 34)))]
    rng.shuffle(opened)
    records = lot_start(rng, order) + [record(order, PIR, pir(part)) for part in opened]
    if rng.random() < 0.3:  # a part that is open already, where 32 are
        records.append(record(order, PIR, pir(rng.choice(opened))))
    return records + lot_end(rng, order, opened, [])


def lot_of_wafers(rng, order):
    """7 to 10 wafers open at once: the ninth is one too many; now and then an open head again, where 8 are."""
    wafers = [(head, rng.choice(GROUPS)) for head in rng.sample(range(256), rng.choice((7, 8, 8, 9, 10)))]
    records = lot_start(rng, order) + [record(order, WIR, wir(rng, wafer)) for wafer in wafers]
    if rng.random() < 0.3:
        records.append(record(order, WIR, wir(rng, rng.choice(wafers))))
    return records + lot_end(rng, order, [], wafers)


def lot_of_keys(rng, order):
    """About 1,024 keys: the 1,025th is one too many, a key that is held is not."""
    keys = [(head, site, hard) for head in (0, 3, 254) for site in (0, 9, 255) for hard in range(7, 122)]
    rng.shuffle(keys)
    keys = keys[:rng.choice((1023, 1024, 1025, 1030))]
    keys += rng.choices(keys[:1000], k=20)
    records = lot_start(rng, order)
    for head, site, hard in keys:
        start = bytes((head, site, 0)) + rng.randbytes(2) + u2(order, hard)
        records += [record(order, PIR, pir((head, site))), record(order, PRR, start)]
    return records + lot_end(rng, order, [], [])


def lot_of_long_records(rng, order):
    """Records up to the longest that is read, so that one lies across any buffer's end."""
    records = plain_lot(rng, order)
    for _ in range(rng.randint(2, 14)):
        at = rng.randint(2, len(records) - 1)
        length = rng.choice((65532, 65531, 65530, 65000, 40000, 32768, 8191))
        # before the body a long record is out of place, and that is a case too
        records.insert(at if rng.random() < 0.1 else -1, record(order, rng.choice(FREE), bytes(length)))
    return records


# ---- records damaged

def drop(rng, order, records):
    del records[rng.randrange(len(records))]


def repeat(rng, order, records):
    records.insert(rng.randrange(len(records)), rng.choice(records))


def exchange(rng, order, records):
    i, j = rng.randrange(len(records)), rng.randrange(len(records))
    records[i], records[j] = records[j], records[i]


def repeat_far(rng, order, records):
    records.insert(rng.randint(1, len(records)), FAR[rng.choice(ORDERS)])


def go_on_after_end(rng, order, records):
    records.append(record(order, rng.choice(EDGES), rng.randbytes(rng.randrange(24))))


def insert_any(rng, order, records):
    records.insert(rng.randint(1, len(records)), record(order, rng.choice(EDGES), rng.randbytes(rng.randrange(24))))


def insert_right(rng, order, records):
    """A record whose body fits, wherever it is put."""
    part, wafer = (rng.choice(HEADS), rng.choice(SITES)), (rng.choice(WAFER_HEADS), rng.choice(GROUPS))
    made = rng.choice((
        (WIR, wir(rng, wafer)), (WRR, wrr(rng, wafer)),
        (MIR, mir(rng, order)), (MRR, mrr(rng, order)), (PCR, pcr(rng, order)), (HBR, bin_count(rng, order)),
        (PIR, pir(part)), (PRR, prr(rng, order, part, rng.choice(BINS))), (RDR, b""), (SDR, b""), (ATR, b"")))
    records.insert(rng.randint(1, len(records)), record(order, *made))


def other_kind(rng, order, records):
    at = rng.randrange(len(records))
    pair = bytes(rng.choice(EDGES)) if rng.random() < 0.7 else rng.randbytes(2)
    records[at] = records[at][:2] + pair + records[at][4:]


def swap_length(rng, order, records):
    at = rng.randrange(len(records))
    records[at] = records[at][1::-1] + records[at][2:]


def swap_orders_from(rng, order, records):
    """From here on lengths are written in the other order."""
    for at in range(rng.randrange(len(records)), len(records)):
        records[at] = records[at][1::-1] + records[at][2:]


def wrong_length(rng, order, records):
    at = rng.randrange(len(records))
    length = int.from_bytes(records[at][:2], order) + rng.choice((-4, -2, -1, 1, 2, 4, 256))
    records[at] = u2(order, length % 65536) + records[at][2:]


def over_size(rng, order, records):
    """A header at the border of too long, with nothing, a little or all of what it says behind it."""
    length = rng.choice((65531, 65532, 65533, 65534, 65535))
    behind = rng.choice((0, 0, 0, 3, 40, length))
    made = u2(order, length) + bytes(rng.choice(EDGES)) + bytes(behind)
    at = rng.randint(1, len(records))
    records[at:] = [made] + (records[at:] if rng.random() < 0.5 else [])


def with_body(rng, order, records, change):
    """Changes the body of a record of a kind that is read, and its length with it; each kind as often as the others."""
    kinds = sorted({tuple(rec[2:4]) for rec in records}.intersection(READ)) or [tuple(records[0][2:4])]
    kind = rng.choice(kinds)
    at = rng.choice([i for i, rec in enumerate(records) if tuple(rec[2:4]) == kind])
    body = change(kind, records[at][4:])
    records[at] = record(order, records[at][2:4], body[:65535])


def refit(rng, order, records):
    """A body a little longer or shorter, its frame right."""
    if rng.random() < 0.5:
        with_body(rng, order, records, lambda _, body: body + rng.randbytes(rng.choice((1, 1, 2, 3, 4, 256))))
    else:
        with_body(rng, order, records, lambda _, body: body[:max(0, len(body) - rng.choice((1, 1, 2, 3, 4)))])


def any_body(rng, order, records):
    """A body of any bytes, or one right at its start, at lengths around those that its kind may have."""
    lengths = {MIR: (15, 19, 20, 21, 22, 40), MRR: (3, 4, 5, 6, 7, 8), PCR: range(27), PIR: range(4),
               HBR: (7, 8, 9, 10, 11, 14), SBR: (7, 8, 9, 10, 11, 14), PRR: range(24), WIR: range(12),
               WRR: range(40)}

    def change(pair, body):
        length = rng.choice(lengths.get(pair, (0, 2)))
        kept = body[:rng.choice((0, 7, 8, 9, 17))][:length]
        return kept + small_bytes(rng, length - len(kept))
    with_body(rng, order, records, change)


def small_bytes(rng, length):
    """Mostly zeros and small numbers, so that counted fields often end inside the body."""
    return bytes(rng.choice((0, 0, 0, 1, 1, 2, 3, 80, 255)) for _ in range(length))


def long_strings(rng, order, records):
    """A MIR with 4 to 32 strings: 5 to 30 fit. Wafers' records with up to 2 and 7: 1 and 6 fit."""
    starts = {MIR: (15, (4, 5, 30, 31, 32)), WIR: (6, (0, 1, 2)), WRR: (26, (0, 1, 5, 6, 7))}
    for at, rec in enumerate(records):
        size, counts = starts.get(tuple(rec[2:4]), (0, ()))
        if counts and rng.random() < 0.5:
            start = (rec[4:4 + size] + bytes(size))[:size]
            records[at] = record(order, rec[2:4], start + b"".join(texts(rng, rng.choice(counts))))


def bad_value(rng, order, records):
    """A value at the border of what the value rules allow."""
    border = u2(order, rng.choice(BORDERS))

    def change(pair, body):
        head = bytes([255]) + body[1:]
        if pair == PRR and len(body) >= 7:
            flagged = body[:2] + rng.randbytes(1) + body[3:]
            soft = body[:7] + border + body[9:] if len(body) >= 9 else body
            return rng.choice((head, flagged, body[:5] + border + body[7:], soft))
        if pair in (HBR, SBR) and len(body) >= 8:
            letter = body[:8] + rng.choice((b"P", b"F", b" ", b"p", b"\0", b"X")) + body[9:]
            return rng.choice((body[:2] + border + body[4:], letter if len(body) > 8 else body))
        return head
    with_body(rng, order, records, change)


def other_wafer(rng, order, records):
    """A WIR or a WRR of another head, or another group."""
    found = [at for at, rec in enumerate(records) if tuple(rec[2:4]) in (WIR, WRR) and len(rec) > 5]
    if found:
        at = rng.choice(found)
        place, value = rng.choice(((4, rng.choice(WAFER_HEADS)), (5, rng.choice(GROUPS))))
        records[at] = records[at][:place] + bytes([value]) + records[at][place + 1:]


def lose_wafer(rng, order, records):
    """Without one WIR or WRR, or without all WRRs."""
    found = [at for at, rec in enumerate(records) if tuple(rec[2:4]) in (WIR, WRR)]
    if rng.random() < 0.5:
        records[:] = [r for r in records if tuple(r[2:4]) != WRR]
    elif found:
        del records[rng.choice(found)]


def wafer_again(rng, order, records):
    """A WIR twice, or a WRR, with records between."""
    found = [at for at, rec in enumerate(records) if tuple(rec[2:4]) in (WIR, WRR)]
    if found:
        at = rng.choice(found)
        records.insert(rng.randint(at + 1, min(at + 4, len(records))), records[at])


def without_pcr(rng, order, records):
    records[:] = [r for r in records if tuple(r[2:4]) != PCR]


def end_early(rng, order, records):
    records.insert(rng.randint(1, len(records)), record(order, MRR, mrr(rng, order)))


def before_lot(rng, order, records):
    records.insert(1, record(order, rng.choice(FREE + READ + [ATR, RDR, SDR]), rng.randbytes(rng.randrange(3))))


RECORD_DAMAGES = [
    drop, repeat, exchange, repeat_far, go_on_after_end, insert_any, insert_right, other_kind, swap_length,
    swap_orders_from, wrong_length, over_size, refit, refit, any_body, any_body, long_strings, bad_value, bad_value,
    bad_value, other_wafer, lose_wafer, wafer_again, without_pcr, end_early, before_lot]


# ---- bytes damaged

def flip(rng, data):
    for _ in range(rng.choice((1, 1, 2, 5))):
        if data:
            data[rng.randrange(len(data))] = rng.choice((rng.randrange(256), 0, 255))


def cut(rng, data):
    del data[rng.randint(0, len(data)):]


def cut_short(rng, data):
    del data[rng.randint(0, 12):]


def lose_byte(rng, data):
    if data:
        del data[rng.randrange(len(data))]


def gain_byte(rng, data):
    data.insert(rng.randint(0, len(data)), rng.randrange(256))


def left_over(rng, data):
    headers = (b"\xff\xff\x0f\x0a", b"\4\0\x0f\x0a")
    data += rng.choice((b"\0", b"\0\0", b"\0\0\0", b"\xff\xff\xff", rng.randbytes(3)) + headers)


def other_first(rng, data):
    """A first record with one byte or two of it otherwise."""
    for _ in range(rng.choice((1, 1, 2))):
        at = rng.randrange(6)
        data[at:at + 1] = bytes([rng.choice((0, 1, 2, 3, 4, 5, 10, 20, 255, rng.randrange(256)))])


def garbage(rng, data):
    start = bytes(data[:6]) if rng.random() < 0.7 else b""
    data[:] = start + rng.randbytes(rng.choice((0, 1, 3, 4, 5, 6, 20, 64)))


BYTE_DAMAGES = [flip, flip, flip, cut, cut, cut_short, lose_byte, gain_byte, left_over, left_over, other_first, garbage]


# ---- a stream

def any_lot(rng, order):
    turn = rng.random()
    if turn < 0.008:
        return lot_of_keys(rng, order)
    if turn < 0.011:
        return lot_of_long_records(rng, order)
    if turn < 0.035:
        return lot_of_parts(rng, order)
    if turn < 0.06:
        return lot_of_wafers(rng, order)
    return plain_lot(rng, order)


def stream(seed, number):
    """One stream: about a quarter are right, half have damaged records, a third damaged bytes."""
    rng = random.Random(f"{seed}/{number}")
    order = rng.choice(ORDERS)
    records = any_lot(rng, order)
    turn = rng.random()
    if turn < 0.5:
        for _ in range(rng.choice((1, 1, 1, 2, 3))):
            if records:
                rng.choice(RECORD_DAMAGES)(rng, order, records)
    data = bytearray(b"".join(records))
    if 0.42 < turn < 0.76:
        rng.choice(BYTE_DAMAGES)(rng, data)
    return bytes(data)
