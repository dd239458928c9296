// Prints a JSON object of 50,000 (or as many as the first argument says) names of eight letters that were
// picked so that std's hasher for maps, whose seed is fixed and public, puts them all in one place of a
// table: what somebody does who wants a map to be slow. bench/json.sh compiles and runs it.
#include <stdint.h>
#include <stdio.h>
#include <stdlib.h>

static uint64_t folded(uint64_t a, uint64_t b) {
    unsigned __int128 product = (unsigned __int128)a * b;
    return (uint64_t)product ^ (uint64_t)(product >> 64);
}

// The 32 bits by which a table finds a slice of eight bytes: its length as eight bytes, then each byte.
static uint32_t table_hash(const unsigned char *name) {
    const uint64_t multiplier = 0x9e3779b97f4a7c15;
    uint64_t state = folded(0x243f6a8885a308d3 ^ 8, multiplier ^ 16);
    for (int i = 0; i < 8; i++) {
        uint64_t byte = name[i];
        state = folded(state ^ (byte | byte << 8 | byte << 16), multiplier ^ 2);
    }
    return (uint32_t)(state ^ state >> 32);
}

int main(int count, char **words) {
    long wanted = count > 1 ? atol(words[1]) : 50000, found = 0;
    unsigned char name[9] = {0};
    putchar('{');
    for (uint64_t n = 0; found < wanted; n++) {
        uint64_t rest = n;
        for (int i = 7; i >= 0; i--, rest /= 26) name[i] = 'a' + rest % 26;
        if ((table_hash(name) & 0xfff) != 0) continue;
        printf("%s\"%s\":0", found++ ? "," : "", (char *)name);
    }
    putchar('}');
    return 0;
}
