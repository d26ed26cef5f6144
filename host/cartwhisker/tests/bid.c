/* The worked bid from C: prints what the program `listing` prints for it, then a refusal. */
#include "cartwhisker.h"
#include <inttypes.h>
#include <stdio.h>
#include <string.h>

static const uint32_t words[] = {4, 5, 7, 9, 11, 0, 8, 3, 16, 5, 8, 6, 3, 0, 1, 2};
static const uint8_t message[] = {0x2a, 0, 0, 0, 0, 0, 0, 0, 0x10, 0, 0, 0, 0x13, 0, 0, 0, 0x0a, 0x0b, 0x0c, 0x0d};

static uint32_t word(const uint8_t *bytes)
{
    return (uint32_t)bytes[0] | (uint32_t)bytes[1] << 8 | (uint32_t)bytes[2] << 16 | (uint32_t)bytes[3] << 24;
}

int main(void)
{
    uint8_t layout[sizeof words];
    uint8_t records[4 * CARTWHISKER_RECORD];
    uint64_t count, which;

    for (size_t i = 0; i < sizeof words; i++)
        layout[i] = (uint8_t)(words[i / 4] >> 8 * (i % 4));

    /* A `which` above 4 gives 0 and writes nothing. */
    memset(records, 0xa5, sizeof records);
    if (cartwhisker_check(layout, sizeof layout, message, 10, 5) != 0)
        return 1;
    if (cartwhisker_list(layout, sizeof layout, message, sizeof message, records, sizeof records, UINT32_MAX) != 0)
        return 2;
    for (size_t i = 0; i < sizeof records; i++)
        if (records[i] != 0xa5)
            return 3;

    if (cartwhisker_check(layout, sizeof layout, message, sizeof message, CARTWHISKER_NUMBER) != 0)
        return 4;
    for (which = CARTWHISKER_A; which <= CARTWHISKER_START; which++)
        if (cartwhisker_check(layout, sizeof layout, message, sizeof message, (uint32_t)which) != 0)
            return 5;
    count = cartwhisker_list(layout, sizeof layout, message, sizeof message, records, sizeof records, CARTWHISKER_A);
    for (uint64_t i = 0; i < count; i++) {
        const uint8_t *record = records + i * CARTWHISKER_RECORD;
        printf("%" PRIu32 " %" PRIu32 " %" PRIu32 "\n", word(record), word(record + 4), word(record + 8));
    }

    printf("refused");
    for (which = CARTWHISKER_NUMBER; which <= CARTWHISKER_START; which++)
        printf(" %" PRIu64, cartwhisker_check(layout, sizeof layout, message, 10, (uint32_t)which));
    printf("\n");
    return 0;
}
