// make_stream ptr|prr MEGABYTES SEED > FILE: a large lot, valid to its MRR, the same for the same words.
//
//   ptr  four sites tested at a time, 200 PTRs of 30 bytes a part: what most of a real lot is
//   prr  PIR and PRR alone, over 1,024 keys (4 heads, 16 sites, 16 bins): nothing but parts counted
#include <stdint.h>
#include <stdio.h>
#include <stdlib.h>
#include <string.h>

enum { SITES = 4, TESTS = 200 };

static uint64_t written, state;

// xorshift64*: the same numbers on every machine.
static uint32_t below(uint32_t limit) {
    state ^= state >> 12;
    state ^= state << 25;
    state ^= state >> 27;
    return (uint32_t)((state * 2685821657736338717ull >> 32) % limit);
}

static void put_record(unsigned type, unsigned sub, const uint8_t *body, unsigned length) {
    uint8_t head[4] = {length & 255, length >> 8, type, sub};
    fwrite(head, 1, 4, stdout);
    fwrite(body, 1, length, stdout);
    written += 4 + length;
}

static void put_start(void) {
    static const uint8_t mir[] = "\0\0\0\x66\x10\0\0\x66\1P  \xff\xff \6LOT-42\5CHIP1\4node\4J971\4sort";
    put_record(0, 10, (const uint8_t *)"\2\4", 2);
    put_record(1, 10, mir, sizeof mir - 1);
}

static void put_end(void) {
    static const uint8_t all[6] = {255, 255, 0, 0, 0, 0}, time[4] = {0, 9, 0, 0x66};
    put_record(1, 30, all, 6);
    put_record(1, 20, time, 4);
}

static void put_pir(uint8_t head, uint8_t site) {
    uint8_t body[2] = {head, site};
    put_record(5, 10, body, 2);
}

static void put_prr(uint8_t head, uint8_t site, unsigned bin) {
    uint8_t body[24] = {head, site, bin == 1 ? 0 : 8, TESTS, 0, bin, 0, bin, 0};
    body[9] = below(100);
    body[11] = below(100);
    body[13] = below(256);
    body[17] = 6;
    for (int i = 18; i < 24; i++) body[i] = '0' + below(10);
    put_record(5, 20, body, 24);
}

static void put_ptr(uint8_t head, uint8_t site, unsigned test) {
    uint8_t body[26] = "....hs\0\0rrrr\14leakage pin ";
    uint32_t result = 0x3f800000 | below(1 << 20);
    memset(body, 0, 4);
    body[0] = test & 255;
    body[1] = test >> 8;
    body[4] = head;
    body[5] = site;
    memcpy(body + 8, &result, 4);
    body[25] = 0;
    put_record(15, 10, body, 26);
}

static void put_touchdown(void) {
    for (int site = 0; site < SITES; site++) put_pir(1, site);
    for (int test = 1; test <= TESTS; test++)
        for (int site = 0; site < SITES; site++) put_ptr(1, site, 1000 + test);
    for (int site = 0; site < SITES; site++) put_prr(1, site, below(10) ? 1 : 2 + below(7));
}

static void put_part(void) {
    uint32_t key = below(1024);
    uint8_t head = 1 + key / 256, site = key / 16 % 16;
    put_pir(head, site);
    put_prr(head, site, 1 + key % 16);
}

int main(int words, char **word) {
    if (words != 4 || (strcmp(word[1], "ptr") && strcmp(word[1], "prr"))) {
        fputs("usage: make_stream ptr|prr MEGABYTES SEED\n", stderr);
        return 2;
    }
    uint64_t wanted = strtoull(word[2], NULL, 10) * 1000000;
    state = strtoull(word[3], NULL, 10) * 2 + 1;
    setvbuf(stdout, NULL, _IOFBF, 1 << 20);
    put_start();
    while (written < wanted) {
        if (!strcmp(word[1], "ptr")) put_touchdown();
        else put_part();
    }
    put_end();
    return fflush(stdout) != 0;
}
