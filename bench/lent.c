// What crates/bench_lent does, in C: PIR and PRR pairs under 1,024 keys in no order, delivered in memory ten thousand times
// over to one session that stands in its body.
#include <stdio.h>

#include "lot.h"

enum { KEYS = 1024, PAIR_BYTES = 17, RECORDS = 20480000 };

static uint8_t stream[KEYS * PAIR_BYTES];

static void make_pairs(void) {
    for (int i = 0; i < KEYS; i++) {
        int key = i * 389 % KEYS;
        uint8_t site = key / 32, bin = key % 32;
        uint8_t pair[PAIR_BYTES] = {2, 0, 5, 10, 1, site, 7, 0, 5, 20, 1, site, 0, 0, 0, bin, 0};
        for (int k = 0; k < PAIR_BYTES; k++) stream[i * PAIR_BYTES + k] = pair[k];
    }
}

int main(void) {
    make_pairs();
    lot.place = BODY;
    size_t at = 0;
    for (int turn = 0; turn < RECORDS; turn++) {
        size_t length = HEADER + u2(stream + at, false);
        if (!judge(stream + at, length, false)) lot.record++;
        at += length;
        if (at >= sizeof stream) at = 0;
    }
    printf("%llu %u %u\n", (unsigned long long)lot.record, lot.rows, lot.results);
    return 0;
}
