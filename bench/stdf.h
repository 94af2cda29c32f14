// STDF V4 as documents 01 and 02 condense it, for the programs in C that the proved ones are measured against: kinds, the
// order of a stream, and whether a body fits. Written by hand as one would in C; nothing here is proved.
#ifndef STDF_H
#define STDF_H

#include <stdbool.h>
#include <stddef.h>
#include <stdint.h>

enum { MOST_PARTS = 32, MOST_WAFERS = 8, MOST_ROWS = 1024, LONGEST = 65536, HEADER = 4, FIRST = 6 };
static const uint32_t MOST_RESULTS = 4294967295u;

// Kinds that a rule tells apart; BODY_KIND is every other known kind and every custom one.
enum kind { FAR, ATR, MIR, RDR, SDR, MRR, PCR, BIN, PIR, PRR, WIR, WRR, BODY_KIND, UNKNOWN };

enum place { START, HEADED, LOT, SETUP, BODY, ENDED, PLACES, OUT = PLACES };

static inline unsigned u2(const uint8_t *p, bool high) {
    return high ? (unsigned)p[0] << 8 | p[1] : (unsigned)p[1] << 8 | p[0];
}

// Custom: the type above 200, or one of the eight types and the subtype above 200.
static inline enum kind custom_or_unknown(unsigned type, unsigned sub) {
    if (type > 200) return BODY_KIND;
    if (sub <= 200) return UNKNOWN;
    switch (type) {
    case 0: case 1: case 2: case 5: case 10: case 15: case 20: case 50: return BODY_KIND;
    default: return UNKNOWN;
    }
}

#define PAIR(type, sub) ((type) << 8 | (sub))

static inline enum kind kind_of(unsigned type, unsigned sub) {
    switch (PAIR(type, sub)) {
    case PAIR(15, 10): case PAIR(15, 15): case PAIR(15, 20): return BODY_KIND;
    case PAIR(5, 10): return PIR;
    case PAIR(5, 20): return PRR;
    case PAIR(0, 10): return FAR;
    case PAIR(0, 20): return ATR;
    case PAIR(1, 10): return MIR;
    case PAIR(1, 20): return MRR;
    case PAIR(1, 30): return PCR;
    case PAIR(1, 40): case PAIR(1, 50): return BIN;
    case PAIR(1, 70): return RDR;
    case PAIR(1, 80): return SDR;
    case PAIR(2, 10): return WIR;
    case PAIR(2, 20): return WRR;
    case PAIR(1, 60): case PAIR(1, 62): case PAIR(1, 63):
    case PAIR(2, 30): case PAIR(10, 30): case PAIR(20, 10): case PAIR(20, 20):
    case PAIR(50, 10): case PAIR(50, 30): return BODY_KIND;
    default: return custom_or_unknown(type, sub);
    }
}

// Where a record of a kind leads from a place; OUT: it is out of place. A row a place, a column a kind up to BODY_KIND.
static const uint8_t next_place[PLACES][UNKNOWN] = {
    [START] = {HEADED, OUT, OUT, OUT, OUT, OUT, OUT, OUT, OUT, OUT, OUT, OUT, OUT},
    [HEADED] = {OUT, HEADED, LOT, OUT, OUT, OUT, OUT, OUT, OUT, OUT, OUT, OUT, OUT},
    [LOT] = {OUT, OUT, OUT, SETUP, SETUP, ENDED, BODY, BODY, BODY, BODY, BODY, BODY, BODY},
    [SETUP] = {OUT, OUT, OUT, OUT, SETUP, ENDED, BODY, BODY, BODY, BODY, BODY, BODY, BODY},
    [BODY] = {OUT, OUT, OUT, OUT, OUT, ENDED, BODY, BODY, BODY, BODY, BODY, BODY, BODY},
    [ENDED] = {OUT, OUT, OUT, OUT, OUT, OUT, OUT, OUT, OUT, OUT, OUT, OUT, OUT},
};

// Up to `most` counted fields from `at` to the very end.
static inline bool strings_fit(const uint8_t *body, size_t length, size_t at, int most) {
    for (; at < length && most > 0; most--) at += 1 + body[at];
    return at == length;
}

static inline bool mir_fits(const uint8_t *body, size_t length) {
    size_t at = 15;
    for (int required = 5; required > 0; required--) {
        if (at >= length) return false;
        at += 1 + body[at];
    }
    return strings_fit(body, length, at, 25);
}

static inline bool mrr_fits(const uint8_t *body, size_t length) {
    return length == 4 || (length >= 5 && strings_fit(body, length, 5, 2));
}

static inline bool pcr_fits(size_t length) {
    return length >= 6 && length <= 22 && length % 4 == 2;
}

static inline bool bin_fits(const uint8_t *body, size_t length, bool high) {
    if (length < 8 || u2(body + 2, high) > 32767) return false;
    if (length == 8) return true;
    return (body[8] == 'P' || body[8] == 'F' || body[8] == ' ') && strings_fit(body, length, 9, 1);
}

static inline bool pir_fits(const uint8_t *body, size_t length) {
    return length == 2 && body[0] != 255;
}

static inline bool prr_fits(const uint8_t *body, size_t length, bool high) {
    if (length < 7 || body[0] == 255 || (body[2] & 3) == 3 || u2(body + 5, high) > 32767) return false;
    if (length == 7) return true;
    if (length < 9) return false;
    unsigned soft = u2(body + 7, high);
    if (soft > 32767 && soft != 65535) return false;
    if (length < 17) return length == 9 || length == 11 || length == 13;
    return strings_fit(body, length, 17, 3);
}

static inline bool wir_fits(const uint8_t *body, size_t length) {
    return length >= 6 && strings_fit(body, length, 6, 1);
}

static inline bool wrr_fits(const uint8_t *body, size_t length) {
    if (length < 26) return length >= 10 && length % 4 == 2;
    return strings_fit(body, length, 26, 6);
}

// Whether a body fits its kind, its values included; bodies of other kinds aren't read.
static inline bool fits(enum kind kind, const uint8_t *body, size_t length, bool high) {
    switch (kind) {
    case MIR: return mir_fits(body, length);
    case MRR: return mrr_fits(body, length);
    case PCR: return pcr_fits(length);
    case BIN: return bin_fits(body, length, high);
    case PIR: return pir_fits(body, length);
    case PRR: return prr_fits(body, length, high);
    case WIR: return wir_fits(body, length);
    case WRR: return wrr_fits(body, length);
    default: return true;
    }
}

// The number for the first record, by its own order of checks.
static inline int judge_first(const uint8_t *rec, size_t length) {
    if (length < 4) return 3;
    if (rec[2] != 0 || rec[3] != 10) return 8;
    if (length != 6) return 3;
    if (rec[4] != 1 && rec[4] != 2) return 4;
    if (u2(rec, rec[4] == 1) != 2) return 3;
    return rec[5] == 4 ? 0 : 5;
}

#endif
