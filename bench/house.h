// A house in C, in the shapes that crates/house has, passed by value as its calls take it.
#ifndef HOUSE_H
#define HOUSE_H

#include "stdf.h"

enum { SLOTS = 16, CARRY = 65539 };

struct session {
    enum place place;
    bool high, pcr;
    uint32_t results;
    size_t opened;
    size_t wafers;
    uint64_t parts[MOST_PARTS]; // rising
    uint64_t wafer[MOST_WAFERS]; // head and site group from the highest bits down, heads rising
};

struct slot {
    bool taken;
    uint32_t floor;
    struct session session;
    size_t held; // bytes of its stream that wait in the carry
};

struct house {
    uint64_t keys[MOST_ROWS]; // slot, head, site and bin from the highest bits down, rising
    uint64_t counts[MOST_ROWS];
    size_t used;
    struct slot slots[SLOTS];
};

struct answered {
    int answer;
    struct house house;
};

struct fed {
    int answer;
    size_t taken;
    struct house house;
};

struct figures {
    int answer;
    uint32_t free, promised;
};

struct answered deliver(struct house house, uint32_t slot, const uint8_t *rec, size_t length);
struct fed feed(struct house house, uint32_t slot, uint8_t *carry, size_t room, const uint8_t *chunk, size_t length);
int end_feed(struct house house, uint32_t slot);
struct figures figures(struct house house);

#endif
