/* The case of document 01's first job, and its confirmation. `ffi/run-c-example` builds and
 * runs it. */
#include <inttypes.h>
#include <stdio.h>

#include "vindacsor.h"

/* The number that eight bytes stand for, low byte first. */
static uint64_t number(const uint8_t *bytes)
{
    uint64_t n = 0;
    for (int i = 7; i >= 0; i--)
        n = n << 8 | bytes[i];
    return n;
}

int main(void)
{
    /* Format 3/4, add, mode 0; a 0100x101, b 001x1011, c 010xx10x. */
    static const uint8_t job[] = {
        0x07, 3, 4, 0,
        0xF7, 0, 0, 0, 0x45, 0, 0, 0,
        0xEF, 0, 0, 0, 0x2B, 0, 0, 0,
        0xE6, 0, 0, 0, 0x44, 0, 0, 0,
    };
    uint8_t out[VINDACSOR_GENERATE_BYTES];
    uint64_t refusal = vindacsor_generate(job, sizeof job, out, sizeof out);
    if (refusal != 0) {
        printf("refused %" PRIu64 "\n", refusal);
        return 1;
    }
    uint64_t a = number(out), b = number(out + 8), c = number(out + 16);
    printf("case %02" PRIx64 " %02" PRIx64 " %02" PRIx64, a, b, c);
    if (number(out + 24) == 1)
        printf(" row %02" PRIx64 "\n", number(out + 32));
    else
        printf(" no row\n");

    uint8_t fits[VINDACSOR_CONFIRM_BYTES];
    refusal = vindacsor_confirm(job, sizeof job, a, b, c, fits, sizeof fits);
    printf("confirmed %s\n", refusal == 0 && number(fits) == 1 ? "yes" : "no");
    return refusal == 0 && number(fits) == 1 ? 0 : 1;
}
