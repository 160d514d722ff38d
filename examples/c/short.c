#include "famdrize.h"
#include <stdio.h>

static uint32_t store[FAMDRIZE_STORE_WORDS], players[FAMDRIZE_PLAYERS_WORDS];

int main(void)
{
    famdrize_reply r = famdrize_fresh(store, FAMDRIZE_STORE_WORDS, players, FAMDRIZE_PLAYERS_WORDS);
    if (r.code == 0) /* player 0 gets entries 40 to 59 */
        r = famdrize_step(store, FAMDRIZE_STORE_WORDS, players, FAMDRIZE_PLAYERS_WORDS, FAMDRIZE_ASSIGN, 0, 40, 60, 0, 0);
    printf("%u %u %u\n", (unsigned)r.code, (unsigned)r.a, (unsigned)r.b); /* 1 1 0: serial 1 */
    return 0;
}
