// Writes a module with COUNT names, for tests/limits.py: chosen plain|chosen COUNT.
// The plain names are in no way chosen. The chosen ones fall into one bucket of a map whose hash has the fixed key.
#include <stdint.h>
#include <stdio.h>
#include <stdlib.h>
#include <string.h>

// SipHash-1-3 with the key 0.
struct sip {
    uint64_t v0, v1, v2, v3;
};

static uint64_t turned(uint64_t word, int by) { return word << by | word >> (64 - by); }

static void one_round(struct sip *s) {
    s->v0 += s->v1;
    s->v2 += s->v3;
    s->v1 = turned(s->v1, 13) ^ s->v0;
    s->v3 = turned(s->v3, 16) ^ s->v2;
    s->v0 = turned(s->v0, 32);
    s->v2 += s->v1;
    s->v0 += s->v3;
    s->v1 = turned(s->v1, 17) ^ s->v2;
    s->v3 = turned(s->v3, 21) ^ s->v0;
    s->v2 = turned(s->v2, 32);
}

static void take(struct sip *s, uint64_t word) {
    s->v3 ^= word;
    one_round(s);
    s->v0 ^= word;
}

// Returns the hash of a name: of its octets, eight at a time with the first as the lowest, and of their number.
static uint64_t hash(const char *name, size_t length) {
    struct sip s = {0x736f6d6570736575, 0x646f72616e646f6d, 0x6c7967656e657261, 0x7465646279746573};
    uint64_t word = 0;
    for (size_t i = 0; i < length; i++) {
        word |= (uint64_t)(uint8_t)name[i] << (8 * (i % 8));
        if (i % 8 < 7) continue;
        take(&s, word);
        word = 0;
    }
    take(&s, (uint64_t)length << 56 | word);
    s.v2 ^= 0xff;
    for (int i = 0; i < 3; i++) one_round(&s);
    return s.v0 ^ s.v1 ^ s.v2 ^ s.v3;
}

// Returns the bucket of a name in a map of up to 4096 groups.
static uint64_t place(const char *name) {
    uint64_t found = hash(name, strlen(name));
    return (found ^ found >> 32) & 4095;
}

// Writes the name of a number, eight letters.
static void spell(uint64_t number, char *name) {
    for (int i = 0; i < 8; i++, number /= 26) name[i] = (char)('a' + number % 26);
    name[8] = 0;
}

int main(int count, char **words) {
    if (count != 3) return 2;
    int chosen = strcmp(words[1], "chosen") == 0;
    long wanted = strtol(words[2], NULL, 10);
    char name[9];
    puts("MANY DEFINITIONS ::= BEGIN");
    for (uint64_t number = 0; wanted > 0; number++) {
        spell(number * 2654435761 % 208827064576, name);
        if (chosen && place(name) != 0) continue;
        printf("%s OBJECT IDENTIFIER ::= { iso %ld }\n", name, wanted--);
    }
    puts("END");
    return 0;
}
