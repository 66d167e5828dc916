/* TIMER4 on, a hundred cycles, its count: prints 0000000a. */
#include "fm1.h"
#include <stdio.h>

static uint8_t queue[FM1_QUEUE_BYTES], out[FM1_OUT_BYTES];
static uint64_t script[FM1_SCRIPT_WORDS];
static uint32_t icfg[FM1_BANK_WORDS], icfg1[FM1_BANK_WORDS];

int main(void) {
    fm1_done_t made = fm1_new(240000000, queue, sizeof queue, script, FM1_SCRIPT_WORDS, icfg, FM1_BANK_WORDS, icfg1, FM1_BANK_WORDS);
    if (made.refused) return 1;
    fm1_written_t on = fm1_write(made.board, 0x10800, 1, icfg, FM1_BANK_WORDS, icfg1, FM1_BANK_WORDS);
    fm1_advanced_t step = fm1_advance(on.board, 100, queue, sizeof queue, script, FM1_SCRIPT_WORDS, out, sizeof out);
    if (on.refused || step.due.refused) return 1;
    fm1_reading_t count = fm1_read(step.board, 0x10804, icfg, FM1_BANK_WORDS, icfg1, FM1_BANK_WORDS);
    printf("%08x\n", (unsigned)count.value);
    return count.refused || !count.some;
}
