// What crates/bench_listing does, in C, as one would write it for speed: 1,024 rows as HBR lines, ten thousand times
// over. A number's width is found by comparing; its digits are written two a step, from the last. Both digits of a pair
// are computed; with -DTABLE they are taken from a table of the hundred pairs.
#include <stdint.h>
#include <stdio.h>
#include <string.h>

enum { ROWS = 1024, TURNS = 10000, MOST_LINE = 48 };

struct row {
    uint8_t head, site;
    uint16_t bin;
    uint32_t count;
};

static struct row rows[ROWS];
static char out[ROWS * MOST_LINE];

static void make_rows(void) {
    for (unsigned i = 0; i < ROWS; i++) {
        uint32_t n = (i + 1) * 2654435761ull % 4294967295;
        for (unsigned k = i % 10; k > 0; k--) n /= 10;
        rows[i] = (struct row){1, i / 32, i % 32 * 1000, n + 1};
    }
}

#ifdef TABLE
static char pairs[200];

static void make_pairs(void) {
    for (int i = 0; i < 100; i++) {
        pairs[2 * i] = '0' + i / 10;
        pairs[2 * i + 1] = '0' + i % 10;
    }
}

static inline void put_pair(char *to, uint32_t two) { memcpy(to, pairs + 2 * two, 2); }
#else
static void make_pairs(void) {}

static inline void put_pair(char *to, uint32_t two) {
    to[0] = '0' + two / 10;
    to[1] = '0' + two % 10;
}
#endif

static inline unsigned width(uint32_t n) {
    if (n < 100000) return n < 100 ? n < 10 ? 1 : 2 : n < 1000 ? 3 : n < 10000 ? 4 : 5;
    return n < 10000000 ? n < 1000000 ? 6 : 7 : n < 100000000 ? 8 : n < 1000000000 ? 9 : 10;
}

static inline char *put_number(char *at, uint32_t n, char mark) {
    char *end = at + width(n);
    for (char *to = end; n >= 100; n /= 100) put_pair(to -= 2, n % 100);
    if (n < 10) *at = '0' + n;
    else put_pair(at, n);
    *end = mark;
    return end + 1;
}

static __attribute__((noinline)) size_t list(void) {
    char *at = out;
    for (unsigned i = 0; i < ROWS; i++) {
        memcpy(at, "HBR:", 4);
        at = put_number(at + 4, rows[i].head, '|');
        at = put_number(at, rows[i].site, '|');
        at = put_number(at, rows[i].bin, '|');
        at = put_number(at, rows[i].count, '\n');
    }
    __asm__ volatile("" ::: "memory"); // each listing is written, though only the last is printed
    return at - out;
}

int main(void) {
    make_rows();
    make_pairs();
    uint64_t bytes = 0;
    size_t last = 0;
    for (int turn = 0; turn < TURNS; turn++) bytes += last = list();
    printf("%llu\n", (unsigned long long)bytes);
    fwrite(out, 1, last, stdout);
    return 0;
}
