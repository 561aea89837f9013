/* The sums of 1,500 octets in each round, as `vn_bench sum ROUNDS` does them: big-endian words are
   added up in 64 bits, and the carries are folded in at the end (RFC 1071, section 2). */
#include <stddef.h>
#include <stdint.h>
#include <stdio.h>
#include <stdlib.h>

enum { OCTETS = 1500 };

static uint16_t fold(uint64_t total)
{
    while (total > 0xffff)
        total = (total & 0xffff) + (total >> 16);
    return (uint16_t)total;
}

static uint16_t sum16(const uint8_t *octets, size_t length)
{
    uint64_t total = 0;
    size_t i = 0;
    for (; i + 1 < length; i += 2)
        total += (uint64_t)(octets[i] << 8 | octets[i + 1]);
    if (i < length)
        total += (uint64_t)octets[i] << 8;
    return fold(total);
}

int main(int argc, char **argv)
{
    unsigned long long rounds = argc > 1 ? strtoull(argv[1], NULL, 10) : 2000;
    uint8_t octets[OCTETS];
    uint16_t folded = 0;
    for (int place = 0; place < OCTETS; place++)
        octets[place] = (uint8_t)(place % 251);
    for (unsigned long long round = 0; round < rounds; round++) {
        uint16_t sum = sum16(octets, OCTETS);
        octets[round % OCTETS] = (uint8_t)(sum % 256);
        folded = fold((uint64_t)folded + sum);
    }
    printf("sum %04x\n", folded);
    return 0;
}
