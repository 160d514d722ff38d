/* All calls from C: each reply as code, a and b, a refusal with its words. steps.txt is what it prints. */
#include "famdrize.h"

#include <stdio.h>

static uint32_t store[FAMDRIZE_STORE_WORDS];
static uint32_t players[FAMDRIZE_PLAYERS_WORDS];
static famdrize_request requests[FAMDRIZE_REQUESTS];

static void print(const char *name, famdrize_reply r)
{
    printf("%s %u %u %u", name, (unsigned)r.code, (unsigned)r.a, (unsigned)r.b);
    if (r.code >= FAMDRIZE_TABLE_LENGTH)
        printf(": %s", famdrize_code_words(r.code));
    putchar('\n');
}

static void print_interval(const char *name, famdrize_interval i)
{
    printf("%s %u %u %u %u", name, (unsigned)i.code, (unsigned)i.guard, (unsigned)i.first, (unsigned)i.last);
    if (i.code >= FAMDRIZE_TABLE_LENGTH)
        printf(": %s", famdrize_code_words(i.code));
    putchar('\n');
}

static void print_report(const char *name, famdrize_report r)
{
    printf("%s %u %u %u: %s\n", name, (unsigned)r.why, (unsigned)r.records, (unsigned)r.place, famdrize_why_words(r.why));
}

static void print_replies(const uint32_t *replies, size_t words)
{
    for (size_t i = 0; i < words; i += FAMDRIZE_REPLY_WORDS)
        printf("reply %u %u %u\n", (unsigned)replies[i], (unsigned)replies[i + 1], (unsigned)replies[i + 2]);
}

static famdrize_reply step(uint8_t kind, uint8_t player, uint8_t entry, uint16_t high, uint32_t value, uint32_t serial)
{
    return famdrize_step(store, FAMDRIZE_STORE_WORDS, players, FAMDRIZE_PLAYERS_WORDS, kind, player, entry, high, value, serial);
}

static void steps(void)
{
    print("fresh", famdrize_fresh(store, FAMDRIZE_STORE_WORDS, players, FAMDRIZE_PLAYERS_WORDS));
    print("assign", step(FAMDRIZE_ASSIGN, 0, 40, 60, 0, 0));
    print("read", step(FAMDRIZE_READ, 0, 45, 0, 0, 0));
    print("deliver", step(FAMDRIZE_DELIVER, 0, 0, 0, 0, 2));
    print("respond", step(FAMDRIZE_RESPOND, 0, 0, 0, 0, 2));
    print("respond again", step(FAMDRIZE_RESPOND, 0, 0, 0, 0, 2));
    print("request guard", step(FAMDRIZE_REQUEST_GUARD, 0, 40, 60, 0, 0));
    print("find interval", step(FAMDRIZE_FIND_INTERVAL, 0, 45, 0, 0, 0)); /* the guard is not set yet */
    print("deliver", step(FAMDRIZE_DELIVER, 0, 0, 0, 0, 3));
    print("find interval", step(FAMDRIZE_FIND_INTERVAL, 0, 45, 0, 0, 0));
    print("load", step(FAMDRIZE_LOAD, 0, 45, 0, 7, 0)); /* a guard is set there by now */
    print("load", step(FAMDRIZE_LOAD, 0, 9, 0, 7, 0));
    print("deliver", step(FAMDRIZE_DELIVER, 0, 0, 0, 0, 4));
    print("deliver", step(FAMDRIZE_DELIVER, 0, 0, 0, 0, 5));
    print("respond", step(FAMDRIZE_RESPOND, 0, 0, 0, 0, 4));
    print("respond", step(FAMDRIZE_RESPOND, 0, 0, 0, 0, 5));
    print("load with a player", step(FAMDRIZE_LOAD, FAMDRIZE_LOADER, 9, 0, 7, 0));
    print("split with a value", step(FAMDRIZE_SPLIT, 0, 128, 0, 1, 0));
    print("kind 200", step(200, 0, 0, 0, 0, 0));
    print("check", famdrize_check(store, FAMDRIZE_STORE_WORDS, players, FAMDRIZE_PLAYERS_WORDS));
    print("check one word less", famdrize_check(store, FAMDRIZE_STORE_WORDS - 1, players, FAMDRIZE_PLAYERS_WORDS));
}

static famdrize_reply preview(uint8_t kind, uint8_t player, uint8_t entry, uint16_t high, uint32_t value, uint32_t serial)
{
    return famdrize_preview(store, FAMDRIZE_STORE_WORDS, players, FAMDRIZE_PLAYERS_WORDS, kind, player, entry, high, value, serial);
}

/* What a step would reply: nothing is altered, so that the step then replies the same. */
static void previews(void)
{
    print("fresh", famdrize_fresh(store, FAMDRIZE_STORE_WORDS, players, FAMDRIZE_PLAYERS_WORDS));
    print("preview assign", preview(FAMDRIZE_ASSIGN, 0, 40, 60, 0, 0));
    print("assign", step(FAMDRIZE_ASSIGN, 0, 40, 60, 0, 0));
    print("preview write", preview(FAMDRIZE_WRITE, 0, 45, 0, 7, 0)); /* a guard is to be asked for first */
    print("preview request guard", preview(FAMDRIZE_REQUEST_GUARD, 0, 40, 60, 0, 0));
    print("preview kind 200", preview(200, 0, 0, 0, 0, 0));
    print("preview split, one word less",
          famdrize_preview(store, FAMDRIZE_STORE_WORDS - 1, players, FAMDRIZE_PLAYERS_WORDS, FAMDRIZE_SPLIT, 0, 128, 0, 0, 0));
}

static famdrize_report preview_run(const uint8_t *session, size_t bytes, uint32_t budget, uint32_t *replies, size_t words)
{
    return famdrize_preview_run(store, FAMDRIZE_STORE_WORDS, players, FAMDRIZE_PLAYERS_WORDS, session, bytes, budget, replies, words);
}

/* What a run over 17 splits would report: at most 16 are looked at, whatever the budget; of a budget of 2, the replies too. */
static void run_previews(void)
{
    enum { RECORDS = FAMDRIZE_PREVIEW_RECORDS + 1, SPLIT_BYTES = 3, WORDS = RECORDS * FAMDRIZE_REPLY_WORDS, FEW = 3 * FAMDRIZE_REPLY_WORDS };
    uint8_t session[FAMDRIZE_MARK_BYTES + RECORDS * SPLIT_BYTES];
    uint32_t replies[WORDS], few[FEW] = {7, 7, 7, 7, 7, 7, 7, 7, 7};
    uint8_t *record = session + FAMDRIZE_MARK_BYTES;

    famdrize_put_mark(session, sizeof session);
    for (uint8_t entry = 1; entry <= RECORDS; entry++, record += SPLIT_BYTES)
        famdrize_encode(FAMDRIZE_SPLIT, 0, entry, 0, 0, 0, record, SPLIT_BYTES);
    print_report("preview", preview_run(session, sizeof session, UINT32_MAX, replies, WORDS));
    print_report("preview", preview_run(session, sizeof session, 2, few, FEW));
    print_replies(few, FEW);
    print_report("preview without the mark", preview_run(session + 1, sizeof session - 1, 2, few, FEW));
    print("merge", step(FAMDRIZE_MERGE, 0, 1, 0, 0, 0)); /* no split was taken */
}

/* One player takes the places of its own and the common ones: it is refused the next, and so is the loader, and another player is not. A
 * request that is given up keeps its place until it leaves. */
static void places(void)
{
    famdrize_fresh(store, FAMDRIZE_STORE_WORDS, players, FAMDRIZE_PLAYERS_WORDS);
    for (int sent = 0; sent < FAMDRIZE_OWN_PLACES + FAMDRIZE_COMMON_PLACES; sent++)
        step(FAMDRIZE_READ, 0, 45, 0, 0, 0);
    print("read of player 0", step(FAMDRIZE_READ, 0, 45, 0, 0, 0));
    print("load", step(FAMDRIZE_LOAD, 0, 45, 0, 7, 0));
    print("read of player 1", step(FAMDRIZE_READ, 1, 45, 0, 0, 0));
    print("abandon", step(FAMDRIZE_ABANDON, 0, 0, 0, 0, 9));
    print("read of player 0", step(FAMDRIZE_READ, 0, 45, 0, 0, 0));
    print("lose", step(FAMDRIZE_LOSE, 0, 0, 0, 0, 9));
    print("read of player 0", step(FAMDRIZE_READ, 0, 45, 0, 0, 0));
}

static famdrize_reply share(uint8_t player)
{
    return famdrize_share(store, FAMDRIZE_STORE_WORDS, players, FAMDRIZE_PLAYERS_WORDS, player);
}

/* How often a player spares the store: player 0 reads three times, once from the store and twice from memory. Asking alters nothing. */
static void shares(void)
{
    famdrize_reply r;

    famdrize_fresh(store, FAMDRIZE_STORE_WORDS, players, FAMDRIZE_PLAYERS_WORDS);
    step(FAMDRIZE_ASSIGN, 0, 40, 60, 0, 0);
    step(FAMDRIZE_REQUEST_GUARD, 0, 40, 60, 0, 0);
    step(FAMDRIZE_DELIVER, 0, 0, 0, 0, 2);
    step(FAMDRIZE_RESPOND, 0, 0, 0, 0, 2);
    print("read", step(FAMDRIZE_READ, 0, 45, 0, 0, 0));
    print("deliver", step(FAMDRIZE_DELIVER, 0, 0, 0, 0, 3));
    print("share of player 0", share(0)); /* the read is not answered yet */
    print("respond", step(FAMDRIZE_RESPOND, 0, 0, 0, 0, 3));
    print("share of player 0", share(0));
    print("read", step(FAMDRIZE_READ, 0, 45, 0, 0, 0));
    print("share of player 0", share(0));
    print("read", step(FAMDRIZE_READ, 0, 45, 0, 0, 0));
    r = share(0);
    print("share of player 0", r);
    printf("that is %u.%u %%\n", (unsigned)(r.a / 10), (unsigned)(r.a % 10));
    print("share of player 1", share(1));
    print("share of the loader", share(FAMDRIZE_LOADER));
    players[0] = FAMDRIZE_LAST_SERIAL + 1;
    print("share of the loader, a rule broken", share(FAMDRIZE_LOADER));
    print("and one word less", famdrize_share(store, FAMDRIZE_STORE_WORDS, players, FAMDRIZE_PLAYERS_WORDS - 1, FAMDRIZE_LOADER));
}

static void store_alone(void)
{
    print("fresh", famdrize_store_fresh(store, FAMDRIZE_STORE_WORDS));
    print("split", famdrize_store_split(store, FAMDRIZE_STORE_WORDS, 128));
    print("set guard", famdrize_store_set_guard(store, FAMDRIZE_STORE_WORDS, 40, 60, 2));
    print_interval("find interval", famdrize_store_find_interval(store, FAMDRIZE_STORE_WORDS, 45));
    print_interval("find interval", famdrize_store_find_interval(store, FAMDRIZE_STORE_WORDS, 127)); /* open, and a boundary inside */
    print_interval("find interval, one word less", famdrize_store_find_interval(store, FAMDRIZE_STORE_WORDS - 1, 45));
    print("write", famdrize_store_write(store, FAMDRIZE_STORE_WORDS, 45, 7, 3, 2));
    print("write", famdrize_store_write(store, FAMDRIZE_STORE_WORDS, 45, 8, 4, 1));
    print("load", famdrize_store_write(store, FAMDRIZE_STORE_WORDS, 45, 8, 4, FAMDRIZE_OPEN_GUARD));
    print("load", famdrize_store_write(store, FAMDRIZE_STORE_WORDS, 60, 8, 4, FAMDRIZE_OPEN_GUARD));
    print("read", famdrize_store_read(store, FAMDRIZE_STORE_WORDS, 45));
    print("restart", famdrize_store_restart(store, FAMDRIZE_STORE_WORDS, 45));
    print_interval("find interval", famdrize_store_find_interval(store, FAMDRIZE_STORE_WORDS, 45));
    print_interval("find interval", famdrize_store_find_interval(store, FAMDRIZE_STORE_WORDS, 128)); /* open, behind what is barred */
    print("write", famdrize_store_write(store, FAMDRIZE_STORE_WORDS, 45, 9, 5, 2));
    print("load", famdrize_store_write(store, FAMDRIZE_STORE_WORDS, 60, 9, 5, FAMDRIZE_OPEN_GUARD));
    print("write that carries barred", famdrize_store_write(store, FAMDRIZE_STORE_WORDS, 60, 9, 5, FAMDRIZE_BARRED));
    print("merge", famdrize_store_merge(store, FAMDRIZE_STORE_WORDS, 128));
    print("merge again", famdrize_store_merge(store, FAMDRIZE_STORE_WORDS, 128));
    print("check", famdrize_store_check(store, FAMDRIZE_STORE_WORDS));
    print("check at 2", famdrize_store_check_at(store, FAMDRIZE_STORE_WORDS, 2));
}

static void records(void)
{
    uint8_t session[FAMDRIZE_MARK_BYTES + FAMDRIZE_RECORD_BYTES];
    uint8_t empty[1];
    famdrize_decoded d;

    print("mark", famdrize_put_mark(session, sizeof session));
    print("encode", famdrize_encode(FAMDRIZE_WRITE, 0, 45, 0, 7, 0, session + FAMDRIZE_MARK_BYTES, sizeof session - FAMDRIZE_MARK_BYTES));
    for (size_t i = 0; i < sizeof session; i++)
        printf("%02X%s", session[i], i + 1 < sizeof session ? " " : "\n");
    d = famdrize_decode(session + FAMDRIZE_MARK_BYTES, sizeof session - FAMDRIZE_MARK_BYTES);
    printf("decode %u, %u bytes: %u %u %u %u %u %u\n", (unsigned)d.code, (unsigned)d.length, (unsigned)d.kind, (unsigned)d.player,
           (unsigned)d.entry, (unsigned)d.high, (unsigned)d.value, (unsigned)d.serial);
    d = famdrize_decode(empty, 0);
    printf("decode no byte: %u, %s\n", (unsigned)d.code, famdrize_code_words(d.code));
    printf("marked %d %d\n", famdrize_marked(session, sizeof session), famdrize_marked(session, 3));
}

static void waiting(void)
{
    requests[0] = (famdrize_request){.serial = 1, .player = 3, .kind = FAMDRIZE_READ, .low = 45};
    requests[1] = (famdrize_request){.serial = 2, .player = 3, .kind = FAMDRIZE_READ, .low = 46, .abandoned = 1};
    requests[2] = (famdrize_request){.serial = 4, .player = 3, .kind = FAMDRIZE_READ, .low = 47};
    requests[3] = (famdrize_request){.serial = 5, .player = 3, .kind = FAMDRIZE_READ, .low = 48, .abandoned = 255}; /* a mark as well */
    requests[4] = (famdrize_request){.serial = 6, .player = FAMDRIZE_LOADER, .kind = FAMDRIZE_WRITE, .low = 45, .value = 7};
    print("waiting", famdrize_waiting(requests, FAMDRIZE_REQUESTS, 3));
    print("waiting of the loader", famdrize_waiting(requests, FAMDRIZE_REQUESTS, FAMDRIZE_LOADER));
    print("waiting, one place less", famdrize_waiting(requests, FAMDRIZE_REQUESTS - 1, 3));
}

/* Player 0 gets entries 40 to 59 and asks for a guard; the budget ends before the third record. */
static void run(void)
{
    static const uint8_t session[] = {0x52, 0x53, 0x4C, 0x31,                /* the mark */
                                      0x0F, 0x01, 0x00, 0x28, 0x3C, 0x00,    /* assign */
                                      0x0F, 0x03, 0x00, 0x28, 0x3C, 0x00,    /* ask for a guard */
                                      0x21, 0x06, 0x02, 0x00, 0x00, 0x00};   /* arrive */
    enum { PLACES = 3, WORDS = PLACES * FAMDRIZE_REPLY_WORDS };
    uint32_t replies[WORDS] = {0};

    famdrize_fresh(store, FAMDRIZE_STORE_WORDS, players, FAMDRIZE_PLAYERS_WORDS);
    print_report("run", famdrize_run(store, FAMDRIZE_STORE_WORDS, players, FAMDRIZE_PLAYERS_WORDS, session, sizeof session, 2, replies, WORDS));
    print_replies(replies, WORDS);
}

int main(void)
{
    puts("steps");
    steps();
    puts("previews");
    previews();
    run_previews();
    puts("places for requests");
    places();
    puts("reads from memory");
    shares();
    puts("the store alone");
    store_alone();
    puts("records");
    records();
    puts("waiting requests");
    waiting();
    puts("a run");
    run();
    return 0;
}
