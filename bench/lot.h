// A lot as the baseline keeps it: tables of open parts and of open wafers, a small hash of rows, and one record judged after another. One
// lot a program.
#ifndef LOT_H
#define LOT_H

#include "stdf.h"

// Four places a row, so that a search ends at once.
enum { HASH_BITS = 12, HASH_SIZE = 1 << HASH_BITS };

struct row {
    uint32_t key; // head, site and bin from the highest bits down
    uint32_t count; // 0: no row
};

struct lot {
    enum place place;
    bool pcr;
    unsigned parts, wafers, rows;
    uint32_t results;
    uint64_t record; // records accepted
    bool open[256 * 256]; // by head and site
    uint16_t wafer[256]; // by head: one more than the site group; 0: no wafer is open
    struct row table[HASH_SIZE];
};

static struct lot lot;

static struct row *row_of(uint32_t key) {
    uint32_t at = key * 2654435769u >> (32 - HASH_BITS);
    while (lot.table[at].count && lot.table[at].key != key) at = (at + 1) % HASH_SIZE;
    return &lot.table[at];
}

static inline int open_part(const uint8_t *body) {
    unsigned part = body[0] << 8 | body[1];
    if (lot.open[part]) return 9;
    if (lot.parts == MOST_PARTS) return 11;
    lot.open[part] = true;
    lot.parts++;
    return 0;
}

static inline int count_part(const uint8_t *body, bool high) {
    unsigned part = body[0] << 8 | body[1];
    if (!lot.open[part]) return 10;
    if (lot.results == MOST_RESULTS) return 14;
    struct row *row = row_of((uint32_t)part << 16 | u2(body + 5, high));
    if (!row->count) {
        if (lot.rows == MOST_ROWS) return 13;
        row->key = (uint32_t)part << 16 | u2(body + 5, high);
        lot.rows++;
    }
    row->count++;
    lot.results++;
    lot.open[part] = false;
    lot.parts--;
    return 0;
}

static inline int open_wafer(const uint8_t *body) {
    if (lot.wafer[body[0]]) return 22;
    if (lot.wafers == MOST_WAFERS) return 23;
    lot.wafer[body[0]] = body[1] + 1;
    lot.wafers++;
    return 0;
}

static inline int close_wafer(const uint8_t *body) {
    if (lot.wafer[body[0]] != body[1] + 1) return 22;
    lot.wafer[body[0]] = 0;
    lot.wafers--;
    return 0;
}

// 12, 33, 20.
static inline int end_lot(void) {
    if (lot.parts) return 12;
    if (lot.wafers) return 33;
    return lot.pcr ? 0 : 20;
}

// One whole record after the first: 6, 8, 7, then what its kind asks.
static inline int judge(const uint8_t *rec, size_t length, bool high) {
    const uint8_t *body = rec + HEADER;
    enum kind kind = kind_of(rec[2], rec[3]);
    if (kind == UNKNOWN) return 6;
    enum place place = next_place[lot.place][kind];
    if (place == OUT) return 8;
    if (!fits(kind, body, length - HEADER, high)) return 7;
    int number = 0;
    if (kind == PIR) number = open_part(body);
    else if (kind == PRR) number = count_part(body, high);
    else if (kind == WIR) number = open_wafer(body);
    else if (kind == WRR) number = close_wafer(body);
    else if (kind == MRR) number = end_lot();
    else if (kind == PCR) lot.pcr = true;
    if (!number) lot.place = place;
    return number;
}

#endif
