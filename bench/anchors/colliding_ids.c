// Writes so many ids, one a line, whose places in a hash table of 2^BITS groups are the same: colliding_ids COUNT BITS.
// The hash is that of the kit's tables for a key of eight bytes; bench/hostile has it in Python, and takes what this writes by --ids.
#include <stdint.h>
#include <stdio.h>
#include <stdlib.h>

static uint32_t folded(uint64_t id) {
    const uint64_t start = 0x243f6a8885a308d3ULL, factor = 0x9e3779b97f4a7c15ULL ^ 16;
    unsigned __int128 product = (unsigned __int128)(start ^ id) * factor;
    uint64_t once = (uint64_t)product ^ (uint64_t)(product >> 64);
    return (uint32_t)(once ^ once >> 32);
}

int main(int count, char **words) {
    if (count != 3)
        return 2;
    uint32_t mask = ((uint32_t)1 << atoi(words[2])) - 1;
    long wanted = atol(words[1]);
    for (uint64_t id = 1000; wanted > 0; id++) {
        if (!(folded(id) & mask)) {
            printf("%llu\n", (unsigned long long)id);
            wanted--;
        }
    }
    return 0;
}
