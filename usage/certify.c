/* Certifies the table on standard input: the rounds and the facts' byte 0, or the refusal. */
#include "lambdac.h"
#include <stdio.h>

int main(void) {
    static uint8_t table[65537], certificate[32768];
    static uint16_t scratch[8192];
    size_t length = fread(table, 1, sizeof table, stdin);
    uint64_t answer = lambdac_certify(table, length, certificate, sizeof certificate, scratch, 8192);
    if (answer >> 32)
        return printf("refused %u at %u\n", (unsigned)(answer >> 32), (unsigned)answer) < 0;
    printf("rounds %u, facts", (unsigned)answer);
    for (size_t v = 0; v < length / 16; v++)
        printf(" %u", certificate[8 * v]);
    return printf("\n") < 0;
}
