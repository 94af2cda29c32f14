// The tally program in C, as one would write it for speed: the same checks in the same order and the same output as
// document 01, "Tally program", with a large read buffer, records judged where they lie, tables of open parts and wafers
// and a small hash of rows. It is what the proved program is measured against.
#include <stdio.h>
#include <stdlib.h>
#include <string.h>
#include <unistd.h>

#include "lot.h"

#ifndef READ_SIZE
#define READ_SIZE (1 << 18)
#endif

static uint8_t buffer[READ_SIZE + LONGEST];

// 12 names the smallest of the open parts.
static _Noreturn void refuse(int number) {
    printf("refused %d at record %llu", number, (unsigned long long)lot.record + 1);
    if (number == 12) {
        unsigned part = 0;
        while (!lot.open[part]) part++;
        printf(", head %u site %u", part >> 8, part & 255);
    }
    putchar('\n');
    exit(0);
}

static _Noreturn void too_long(void) {
    printf("too long at record %llu\n", (unsigned long long)lot.record + 1);
    exit(0);
}

// Judges every whole record in the buffer from `at`, and gives the place of the first that isn't whole.
static inline __attribute__((always_inline)) size_t judge_whole(size_t at, size_t have, bool high) {
    while (have - at >= HEADER) {
        size_t length = HEADER + u2(buffer + at, high);
        if (length > LONGEST) too_long();
        if (have - at < length) break;
        int number = judge(buffer + at, length, high);
        if (number) refuse(number);
        lot.record++;
        at += length;
    }
    return at;
}

static int by_key(const void *a, const void *b) {
    uint32_t x = ((const struct row *)a)->key, y = ((const struct row *)b)->key;
    return (x > y) - (x < y);
}

static void report(void) {
    unsigned rows = 0;
    for (unsigned i = 0; i < HASH_SIZE; i++)
        if (lot.table[i].count) lot.table[rows++] = lot.table[i];
    qsort(lot.table, rows, sizeof(struct row), by_key);
    for (unsigned i = 0; i < rows; i++) {
        uint32_t key = lot.table[i].key;
        printf("HBR:%u|%u|%u|%u\n", key >> 24, key >> 16 & 255, key & 65535, lot.table[i].count);
    }
}

static void finish(size_t left) {
    if (left) refuse(3);
    if (lot.place == ENDED) report();
    else printf("unfinished after record %llu\n", (unsigned long long)lot.record);
}

static size_t read_more(size_t have) {
    ssize_t got = read(0, buffer + have, READ_SIZE);
    return got > 0 ? (size_t)got : 0;
}

// The rest of the stream after its FAR; `high` is known where this is inlined, so each order has its own code.
static inline __attribute__((always_inline)) void follow(size_t have, bool high) {
    size_t at = FIRST;
    for (;;) {
        at = judge_whole(at, have, high);
        memmove(buffer, buffer + at, have - at);
        have -= at;
        at = 0;
        size_t got = read_more(have);
        if (!got) break;
        have += got;
    }
    finish(have);
}

int main(void) {
    size_t have = 0, got;
    while (have < FIRST && (got = read_more(have))) have += got;
    if (have) {
        int number = judge_first(buffer, have < FIRST ? have : FIRST);
        if (number) refuse(number);
        lot.place = HEADED;
        lot.record = 1;
    }
    if (!have) finish(0);
    else if (buffer[4] == 1) follow(have, true);
    else follow(have, false);
    return 0;
}
