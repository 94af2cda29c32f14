// What crates/bench_deliver does, in C: two records delivered in turn, by value, to a house with 1,000 rows, a hundred
// thousand in all. Without input both are a PTR; with any they are the PIR and the PRR of a part.
#include <stdio.h>

#include "house.h"

enum { TURNS = 50000, HELD = 1000 };

struct record {
    size_t length;
    uint8_t bytes[11];
};

static struct house held_house(void) {
    static struct house house;
    for (size_t i = 0; i < MOST_ROWS; i++) {
        house.keys[i] = i; // slot 0, head 0, site 0, each with the next bin
        house.counts[i] = 1;
    }
    house.used = HELD;
    house.slots[0].taken = true;
    house.slots[0].floor = MOST_ROWS;
    house.slots[0].session.place = BODY;
    house.slots[0].session.results = HELD;
    return house;
}

int main(void) {
    static const struct record ptr = {8, {4, 0, 15, 10, 0, 0, 0, 0}};
    static const struct record pir = {6, {2, 0, 5, 10, 0, 0}};
    static const struct record prr = {11, {7, 0, 5, 20, 0, 0, 0, 0, 0, 5, 0}};
    bool part = getchar() != EOF;
    const struct record *first = part ? &pir : &ptr, *second = part ? &prr : &ptr;
    struct house house = held_house();
    for (int turn = 0; turn < TURNS; turn++) {
        house = deliver(house, 0, first->bytes, first->length).house;
        house = deliver(house, 0, second->bytes, second->length).house;
    }
    struct figures found = figures(house);
    printf("%d %u %u\n", found.answer, found.free, found.promised);
    return 0;
}
