// What crates/bench_feed does, in C: a stream on standard input fed by value to slot 0 of a house, a call for each
// chunk, up to its end or the first refusal. The first four bytes, high byte first, say how many bytes a chunk has.
#include <stdio.h>
#include <unistd.h>

#include "house.h"

enum { MOST_CHUNK = 262144 };

static uint8_t chunk[MOST_CHUNK], carry[CARRY];

static struct house opened_house(void) {
    static struct house house;
    house.slots[0].taken = true;
    house.slots[0].floor = MOST_ROWS;
    return house;
}

static size_t read_some(uint8_t *bytes, size_t most) {
    ssize_t got = read(0, bytes, most);
    return got > 0 ? (size_t)got : 0;
}

static size_t chunk_size(void) {
    uint8_t b[4] = {0};
    read_some(b, 4);
    size_t size = (size_t)b[0] << 24 | (size_t)b[1] << 16 | (size_t)b[2] << 8 | b[3];
    return size < MOST_CHUNK ? size : MOST_CHUNK;
}

int main(void) {
    struct house house = opened_house();
    size_t most = chunk_size(), got;
    unsigned long long taken = 0;
    int answer;
    do {
        got = read_some(chunk, most);
        struct fed done = feed(house, 0, carry, CARRY, chunk, got);
        house = done.house;
        answer = done.answer;
        taken += done.taken;
    } while (got && !answer);
    struct figures found = figures(house);
    printf("%d %llu %d %u %u\n", answer, taken, end_feed(house, 0), found.free, found.promised);
    for (size_t i = 0; i < house.used; i++) {
        unsigned key = (uint32_t)house.keys[i];
        printf("HBR:%u|%u|%u|%llu\n", key >> 24, key >> 16 & 255, key & 65535, (unsigned long long)house.counts[i]);
    }
    return 0;
}
