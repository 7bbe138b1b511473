/* Shows how a secret reaches a variable of the table on standard input: the row to a secret input, or the refusal. */
#include "lambdac.h"
#include <stdio.h>
#include <stdlib.h>

int main(int count, char **words) {
    static uint8_t table[65537];
    static uint16_t row[4096], scratch[32768];
    size_t length = fread(table, 1, sizeof table, stdin);
    uint32_t variable = count > 1 ? (uint32_t)strtoul(words[1], NULL, 10) : 0;
    uint64_t answer = lambdac_path(table, length, variable, row, 4096, scratch, 32768);
    if (answer >> 32)
        return printf("refused %u at %u\n", (unsigned)(answer >> 32), (unsigned)answer) < 0;
    printf("%u variables:", (unsigned)answer);
    for (size_t i = 0; i < answer; i++)
        printf(" %u", row[i]);
    return printf("\n") < 0;
}
