// Deliver, feed and figures of a house in C: document 01, Calls, and document 02, #102 and #103, with the same test of
// soundness. It is a file of its own, so that no compiler sees through the call and a house is truly passed by value.
#include <string.h>

#include "house.h"

struct held {
    uint64_t sum[SLOTS];
    uint32_t rows[SLOTS];
};

// Where a row was found last; any numbers will do. A call that delivers one record has none.
enum { GUESS_BITS = 12, GUESSES = 1 << GUESS_BITS };

// Rising, and each key and count as a part can have them. No way out on the way, so that a compiler can take several
// rows at a time.
static bool rows_right(const uint64_t *keys, const uint64_t *counts, size_t used) {
    uint64_t bad = 0;
    for (size_t i = 0; i < used; i++) {
        bad |= (keys[i] & 0xff000000) == 0xff000000;
        bad |= (keys[i] & 65535) > 32767;
        bad |= counts[i] - 1 >= MOST_RESULTS;
    }
    for (size_t i = 1; i < used; i++) bad |= keys[i - 1] >= keys[i];
    return !bad;
}

// By halves, with no branch to be foreseen: an element only tells where the next one is read.
static size_t rank_of(const uint64_t *keys, size_t used, uint64_t key) {
    size_t at = 0;
    for (size_t left = used; left; left /= 2) at += (left - left / 2) & -(size_t)(keys[at + left / 2] < key);
    return at;
}

// The rows of a slot stand together; what each holds is found on the way.
static bool rows_sound(const struct house *h, struct held *held) {
    if (h->used > MOST_ROWS || !rows_right(h->keys, h->counts, h->used)) return false;
    size_t from = 0;
    for (uint64_t slot = 0; slot < SLOTS && from < h->used; slot++) {
        size_t end = from + rank_of(h->keys + from, h->used - from, (slot + 1) << 32);
        if (end > from && !h->slots[slot].taken) return false;
        uint64_t sum = 0;
        for (size_t i = from; i < end; i++) sum += h->counts[i];
        held->sum[slot] = sum;
        held->rows[slot] = (uint32_t)(end - from);
        from = end;
    }
    return from == h->used;
}

static bool nothing_yet(const struct session *s) { return !s->opened && !s->wafers && !s->pcr && !s->results; }

static bool wafers_sound(const struct session *s) {
    if (s->wafers > MOST_WAFERS) return false;
    for (size_t i = 1; i < s->wafers; i++)
        if (s->wafer[i - 1] >> 8 >= s->wafer[i] >> 8) return false;
    return !s->wafers || s->wafer[s->wafers - 1] >> 16 == 0;
}

static bool session_sound(const struct session *s) {
    if (s->opened > MOST_PARTS) return false;
    for (size_t i = 1; i < s->opened; i++)
        if (s->parts[i - 1] >= s->parts[i]) return false;
    if (s->opened && s->parts[s->opened - 1] >= 255 << 8) return false;
    if (!wafers_sound(s)) return false;
    if (s->place < BODY) return nothing_yet(s);
    return s->place == BODY || (!s->opened && !s->wafers && s->pcr);
}

static bool slot_sound(const struct slot *s, uint64_t sum) {
    if (!s->taken) return !s->floor && nothing_yet(&s->session) && !s->held;
    return s->floor <= MOST_ROWS && s->held <= CARRY && sum == s->session.results && session_sound(&s->session);
}

static uint32_t unfilled(const struct house *h, const struct held *held, uint32_t slot) {
    uint32_t floor = h->slots[slot].floor, rows = held->rows[slot];
    return floor > rows ? floor - rows : 0;
}

static uint32_t promised(const struct house *h, const struct held *held) {
    uint32_t sum = 0;
    for (uint32_t i = 0; i < SLOTS; i++) sum += unfilled(h, held, i);
    return sum;
}

static bool sound(const struct house *h, struct held *held) {
    memset(held, 0, sizeof *held);
    if (!rows_sound(h, held)) return false;
    for (uint32_t i = 0; i < SLOTS; i++)
        if (!slot_sound(&h->slots[i], held->sum[i])) return false;
    return promised(h, held) <= MOST_ROWS - h->used;
}

static void insert(uint64_t *keys, size_t used, size_t at, uint64_t key) {
    memmove(keys + at + 1, keys + at, (used - at) * sizeof *keys);
    keys[at] = key;
}

static int open_part(struct session *s, uint64_t part) {
    size_t at = rank_of(s->parts, s->opened, part);
    if (at < s->opened && s->parts[at] == part) return 9;
    if (s->opened == MOST_PARTS) return 11;
    insert(s->parts, s->opened++, at, part);
    return 0;
}

static size_t find_row(const struct house *h, uint16_t *guesses, uint64_t key) {
    if (!guesses) return rank_of(h->keys, h->used, key);
    uint16_t *guess = guesses + ((uint32_t)key * 2654435769u >> (32 - GUESS_BITS));
    if (*guess >= h->used || h->keys[*guess] != key) *guess = (uint16_t)rank_of(h->keys, h->used, key);
    return *guess;
}

// The row of a key: one that is held, or a new one if the grant rules give it.
static inline int count_row(struct house *h, struct held *held, uint16_t *guesses, uint32_t slot, uint64_t key) {
    size_t at = find_row(h, guesses, key);
    if (at < h->used && h->keys[at] == key) return h->counts[at]++, 0;
    if (held->rows[slot] >= h->slots[slot].floor && MOST_ROWS - h->used <= promised(h, held)) return 13;
    insert(h->keys, h->used, at, key);
    insert(h->counts, h->used++, at, 1);
    held->rows[slot]++;
    return 0;
}

static inline int count_part(struct house *h, struct held *held, uint16_t *guesses, uint32_t slot, const uint8_t *body,
                             bool high) {
    struct session *s = &h->slots[slot].session;
    uint64_t part = (uint64_t)body[0] << 8 | body[1];
    size_t at = rank_of(s->parts, s->opened, part);
    if (at == s->opened || s->parts[at] != part) return 10;
    if (s->results == MOST_RESULTS) return 14;
    int number = count_row(h, held, guesses, slot, (uint64_t)slot << 32 | part << 16 | u2(body + 5, high));
    if (number) return number;
    memmove(s->parts + at, s->parts + at + 1, (--s->opened - at) * sizeof *s->parts);
    s->results++;
    return 0;
}

// Where the wafer of a head stands, or would.
static size_t wafer_rank(const struct session *s, uint8_t head) {
    return rank_of(s->wafer, s->wafers, (uint64_t)head << 8);
}

static int open_wafer(struct session *s, const uint8_t *body) {
    size_t at = wafer_rank(s, body[0]);
    if (at < s->wafers && s->wafer[at] >> 8 == body[0]) return 22;
    if (s->wafers == MOST_WAFERS) return 23;
    insert(s->wafer, s->wafers++, at, (uint64_t)body[0] << 8 | body[1]);
    return 0;
}

static int close_wafer(struct session *s, const uint8_t *body) {
    size_t at = wafer_rank(s, body[0]);
    if (at == s->wafers || s->wafer[at] != ((uint64_t)body[0] << 8 | body[1])) return 22;
    memmove(s->wafer + at, s->wafer + at + 1, (--s->wafers - at) * sizeof *s->wafer);
    return 0;
}

// 12, 33, 20.
static int end_lot(const struct session *s) {
    if (s->opened) return 12;
    if (s->wafers) return 33;
    return s->pcr ? 0 : 20;
}

// One whole record after the first: 6, 8, 7, then what its kind asks.
static inline __attribute__((always_inline)) int judge(struct house *h, struct held *held, uint16_t *guesses,
                                                       uint32_t slot, const uint8_t *rec, size_t length, bool high) {
    struct session *s = &h->slots[slot].session;
    enum kind kind = kind_of(rec[2], rec[3]);
    if (kind == UNKNOWN) return 6;
    enum place place = next_place[s->place][kind];
    if (place == OUT) return 8;
    const uint8_t *body = rec + HEADER;
    if (!fits(kind, body, length - HEADER, high)) return 7;
    int number = 0;
    if (kind == PIR) number = open_part(s, (uint64_t)body[0] << 8 | body[1]);
    else if (kind == PRR) number = count_part(h, held, guesses, slot, body, high);
    else if (kind == WIR) number = open_wafer(s, body);
    else if (kind == WRR) number = close_wafer(s, body);
    else if (kind == MRR) number = end_lot(s);
    else if (kind == PCR) s->pcr = true;
    if (!number) s->place = place;
    return number;
}

static int deliver_later(struct house *h, struct held *held, uint32_t slot, const uint8_t *rec, size_t length) {
    bool high = h->slots[slot].session.high;
    if (length < HEADER || length != HEADER + u2(rec, high)) return 3;
    return judge(h, held, NULL, slot, rec, length, high);
}

static int deliver_first(struct session *s, const uint8_t *rec, size_t length) {
    int number = judge_first(rec, length);
    if (number) return number;
    s->high = rec[4] == 1;
    s->place = HEADED;
    return 0;
}

static int deliver_record(struct house *h, struct held *held, uint32_t slot, const uint8_t *rec, size_t length) {
    struct session *s = &h->slots[slot].session;
    return s->place == START ? deliver_first(s, rec, length) : deliver_later(h, held, slot, rec, length);
}

// What every call of a slot asks first.
static int judge_slot(const struct house *h, struct held *held, uint32_t slot) {
    if (!sound(h, held)) return 15;
    if (slot >= SLOTS) return 1;
    return h->slots[slot].taken ? 0 : 2;
}

static int deliver_to(struct house *h, uint32_t slot, const uint8_t *rec, size_t length) {
    struct held held;
    int number = judge_slot(h, &held, slot);
    return number ? number : deliver_record(h, &held, slot, rec, length);
}

struct answered deliver(struct house house, uint32_t slot, const uint8_t *rec, size_t length) {
    struct answered done;
    done.house = house;
    done.answer = deliver_to(&done.house, slot, rec, length);
    return done;
}

// How many bytes the next record has, as far as those that are there can tell.
static size_t needed(const struct session *s, const uint8_t *bytes, size_t have) {
    if (s->place == START) return FIRST;
    return have < HEADER ? HEADER : HEADER + u2(bytes, s->high);
}

static size_t least(size_t a, size_t b) { return a < b ? a : b; }

// Fills the carry up from the chunk until its first record is whole or the chunk is at its end; gives that record's
// length, as far as it is known.
static size_t fill(struct slot *s, uint8_t *carry, const uint8_t *chunk, size_t length, size_t *taken) {
    for (;;) {
        size_t n = needed(&s->session, carry, s->held);
        if (s->held >= n || *taken == length) return n;
        size_t more = least(n - s->held, length - *taken);
        memcpy(carry + s->held, chunk + *taken, more);
        s->held += more;
        *taken += more;
    }
}

// The records that begin in the carry. Only the first of them can reach into the chunk, but a delivery in between may
// have left more than one.
static int feed_carry(struct house *h, struct held *held, uint32_t slot, uint8_t *carry, const uint8_t *chunk,
                      size_t length, size_t *taken) {
    struct slot *s = &h->slots[slot];
    while (s->held) {
        size_t n = fill(s, carry, chunk, length, taken);
        if (s->held < n) return 0;
        int number = deliver_record(h, held, slot, carry, n);
        if (number) return number;
        s->held -= n;
        memmove(carry, carry + n, s->held);
    }
    return 0;
}

// What feeding has come to in a chunk: the place of the next record, and the number of a refused one.
struct course {
    size_t at;
    int number;
};

// All records that are whole, where they lie; `high` is known where this is inlined, so each order has its own code.
static inline __attribute__((always_inline)) struct course judge_whole(struct house *h, struct held *held,
                                                                       uint16_t *guesses, uint32_t slot,
                                                                       const uint8_t *chunk, size_t length, size_t at,
                                                                       bool high) {
    while (length - at >= HEADER) {
        size_t n = HEADER + u2(chunk + at, high);
        if (length - at < n) break;
        int number = judge(h, held, guesses, slot, chunk + at, n, high);
        if (number) return (struct course){at, number};
        at += n;
    }
    return (struct course){at, 0};
}

static struct course judge_chunk(struct house *h, struct held *held, uint32_t slot, const uint8_t *chunk, size_t length,
                                 size_t at) {
    struct session *s = &h->slots[slot].session;
    uint16_t guesses[GUESSES] = {0};
    if (s->place == START) {
        if (length - at < FIRST) return (struct course){at, 0};
        int number = deliver_first(s, chunk + at, FIRST);
        if (number) return (struct course){at, number};
        at += FIRST;
    }
    return s->high ? judge_whole(h, held, guesses, slot, chunk, length, at, true)
                   : judge_whole(h, held, guesses, slot, chunk, length, at, false);
}

// The records that begin in the chunk. One that is cut, or refused, goes to the carry.
static int feed_chunk(struct house *h, struct held *held, uint32_t slot, uint8_t *carry, const uint8_t *chunk,
                      size_t length, size_t *taken) {
    struct slot *s = &h->slots[slot];
    struct course c = judge_chunk(h, held, slot, chunk, length, *taken);
    s->held = c.number ? needed(&s->session, chunk + c.at, length - c.at) : length - c.at;
    memcpy(carry, chunk + c.at, s->held);
    *taken = c.at + s->held;
    return c.number;
}

static int feed_to(struct house *h, uint32_t slot, uint8_t *carry, size_t room, const uint8_t *chunk, size_t length,
                   size_t *taken) {
    struct held held;
    int number = judge_slot(h, &held, slot);
    if (number) return number;
    if (room != CARRY) return 17;
    number = feed_carry(h, &held, slot, carry, chunk, length, taken);
    if (number || h->slots[slot].held) return number;
    return feed_chunk(h, &held, slot, carry, chunk, length, taken);
}

struct fed feed(struct house house, uint32_t slot, uint8_t *carry, size_t room, const uint8_t *chunk, size_t length) {
    struct fed done;
    done.house = house;
    done.taken = 0;
    done.answer = feed_to(&done.house, slot, carry, room, chunk, length, &done.taken);
    return done;
}

int end_feed(struct house house, uint32_t slot) {
    struct held held;
    int number = judge_slot(&house, &held, slot);
    return !number && house.slots[slot].held ? 3 : number;
}

struct figures figures(struct house house) {
    struct held held;
    if (!sound(&house, &held)) return (struct figures){15, 0, 0};
    return (struct figures){0, MOST_ROWS - (uint32_t)house.used, promised(&house, &held)};
}
