// Reads standard input to its end and does nothing with it: what no tally can be quicker than.
#include <stdint.h>
#include <unistd.h>

#ifndef READ_SIZE
#define READ_SIZE (1 << 18)
#endif

static uint8_t buffer[READ_SIZE];

int main(void) {
    while (read(0, buffer, READ_SIZE) > 0) {}
    return 0;
}
