/* A netlist from standard input, translated and run as a bench would: once for each setting of its input bits given as an argument.
 *
 *    include/library
 *    cc -Iinclude examples/bench.c target/staticlib/libgrackleivy.a -o bench
 *    ./bench 00010100 1111X000 < examples/adder.ir
 *
 * Bits are written as they are assigned: by row, bit 0 first.
 */
#include "grackleivy.h"

#include <stdio.h>
#include <string.h>

static uint8_t text[65537];
static uint32_t rows[GRACKLE_ROWS];
static uint8_t strings[GRACKLE_STRINGS];
static uint8_t trits[GRACKLE_TRITS];
static uint32_t work[GRACKLE_READ_WORK];
static uint8_t list[GRACKLE_LIST];
static uint8_t slots[GRACKLE_RUN_WORK];

static int refused(uint32_t number, uint64_t place)
{
    if (number != 0)
        printf("refused %u at %llu\n", (unsigned)number, (unsigned long long)place);
    return number != 0;
}

static int run(size_t records, const char *setting)
{
    uint8_t ins[GRACKLE_BITS], outs[GRACKLE_BITS];
    size_t n = strlen(setting);
    if (n > GRACKLE_BITS)
        n = GRACKLE_BITS;
    for (size_t i = 0; i < n; i++)
        ins[i] = setting[i] == '0' ? 0 : setting[i] == '1' ? 1 : setting[i] == 'X' ? GRACKLE_X : 3;
    struct grackle_gave gave = grackle_run(list, records * 8, ins, n, outs, sizeof outs, slots, sizeof slots);
    if (refused(gave.number, gave.place))
        return 1;
    printf("%s gives ", setting);
    for (size_t i = 0; i < gave.count; i++)
        putchar("01X"[outs[i]]);
    putchar('\n');
    return 0;
}

int main(int count, char **settings)
{
    size_t length = fread(text, 1, sizeof text, stdin);
    struct grackle_told told = grackle_read(
        text, length, rows, GRACKLE_ROWS, strings, GRACKLE_STRINGS, trits, GRACKLE_TRITS, work, GRACKLE_READ_WORK);
    if (refused(told.number, told.place))
        return 1;
    struct grackle_gave gave = grackle_translate(
        rows, GRACKLE_ROWS, strings, GRACKLE_STRINGS, trits, GRACKLE_TRITS, list, GRACKLE_LIST, work, GRACKLE_LOGIC_WORK);
    if (refused(gave.number, gave.place))
        return 1;
    int wrong = 0;
    for (int i = 1; i < count; i++)
        wrong |= run(gave.count, settings[i]);
    return wrong;
}
