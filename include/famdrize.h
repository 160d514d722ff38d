/* Famdrize: a store of 256 versioned entries, eight players with a cache each, and the sessions that record every step.
 *
 * The functions are those of the crate `famdrize_c`, proved against their contracts. `tools/library` makes the library to link,
 * target/staticlib/libfamdrize.a (x86-64 Linux). docs/RULES.md says what every step does; docs/FORMATS.md gives every table, record and
 * reply to the word and the byte.
 *
 * Slices. A lent slice is a pointer and the number of its elements. The pointer is not null, also where the number is 0, and is aligned
 * as its elements are; the slices of one call do not overlap unless both are const. Nothing is kept after the call, nothing is allocated,
 * and there is no global state: calls on different tables may run at the same time.
 *
 * Numbers are handed over at the widths declared here: a wider one is cut by the C compiler before the call, which -Wconversion tells.
 *
 * Every call ends and keeps to the slices it is lent, whatever they hold. A refusal is its number and zeros, and alters nothing. */
#ifndef FAMDRIZE_H
#define FAMDRIZE_H

#include <stdbool.h>
#include <stddef.h>
#include <stdint.h>

#ifdef __cplusplus
extern "C" {
#endif

/* The version of this header, and of the library that it is for. */
#define FAMDRIZE_VERSION_MAJOR 0
#define FAMDRIZE_VERSION_MINOR 7
#define FAMDRIZE_VERSION_PATCH 0
#define FAMDRIZE_VERSION "0.7.0"

/* Words of the two tables; places for requests in flight, and so of the lent list; the last serial that can be issued. */
#define FAMDRIZE_STORE_WORDS 1280
#define FAMDRIZE_PLAYERS_WORDS 9489
#define FAMDRIZE_REQUESTS 64
#define FAMDRIZE_LAST_SERIAL 4000000

/* Whose the places are: so many of each player's own, and so many that are common to the players and the loader. Common ones in use are the
 * loader's requests and each player's above its own places, delivered, given up or neither. A player with fewer requests than it has places of
 * its own is never refused for want of a place; FAMDRIZE_NO_PLACE_LEFT is for another, or the loader, where the common ones are taken. */
#define FAMDRIZE_OWN_PLACES 6
#define FAMDRIZE_COMMON_PLACES 16

/* The highest count of a read counter. Each player has two: its answered reads, and how many of them came from its memory; of player p they are
 * words 9473 + 2p and 9474 + 2p of the players' table. A step counts, alone or in a run: reply 2 for the step's player in both, reply 3 for the
 * request's player in the first. Nothing else counts, and no restart sets a count back; famdrize_fresh makes all of them 0. A read that would
 * carry a count above the highest leaves both. Tables with a count above it, or with the second above the first, break a rule (22). */
#define FAMDRIZE_LAST_COUNT 4000000000u

/* Guards of the store's entries that are no serials: of an open entry, on which a load or another write that carries 0 commits; of a barred
 * one, in a tablet that restarted, on which no write commits whatever it carries. An entry once guarded or barred is never open again. */
#define FAMDRIZE_OPEN_GUARD 0u
#define FAMDRIZE_BARRED 4294967295u

/* What stands in place of a player's number in a request that is a load. (As the owner of an entry the same number is nobody.) */
#define FAMDRIZE_LOADER 8

/* Bytes of the longest session, of its mark and of the longest record; the most records that a session holds, and that the preview of a run
 * takes; words of one reply in the list of a run. */
#define FAMDRIZE_SESSION_BYTES 16384
#define FAMDRIZE_MARK_BYTES 4
#define FAMDRIZE_RECORD_BYTES 8
#define FAMDRIZE_SESSION_RECORDS 5460
#define FAMDRIZE_PREVIEW_RECORDS 16
#define FAMDRIZE_REPLY_WORDS 3

/* The kinds of steps. Beside each stand the fields it has; the others are 0. A range goes from entry `entry` up to, not including, `high`. */
enum famdrize_kind {
    FAMDRIZE_ASSIGN = 1,          /* player, entry, high */
    FAMDRIZE_RELEASE = 2,         /* entry, high */
    FAMDRIZE_REQUEST_GUARD = 3,   /* player, entry, high: ask for a guard */
    FAMDRIZE_READ = 4,            /* player, entry */
    FAMDRIZE_WRITE = 5,           /* player, entry, value */
    FAMDRIZE_DELIVER = 6,         /* serial: the request arrives at the store */
    FAMDRIZE_RESPOND = 7,         /* serial: the answer reaches the player, or the loader */
    FAMDRIZE_ABANDON = 8,         /* serial: the player, or the loader, gives the request up */
    FAMDRIZE_LOSE = 9,            /* serial: the given-up request is lost */
    FAMDRIZE_SPLIT = 10,          /* entry */
    FAMDRIZE_MERGE = 11,          /* entry */
    FAMDRIZE_RESTART_TABLET = 12, /* entry */
    FAMDRIZE_RESTART_PLAYER = 13, /* player */
    FAMDRIZE_FIND_INTERVAL = 14,  /* entry: how far its guard reaches */
    FAMDRIZE_LOAD = 15            /* entry, value: a write of the loader, which carries 0 */
};

/* The codes of replies, each with the reply's two numbers a and b, and of refusals, whose numbers are 0. The reasons for which a run stops
 * are another list, below: a number may stand in both and mean two things. */
enum famdrize_code {
    FAMDRIZE_DONE = 0,           /* 0, 0; of the share, of the store used alone, of counting and of the calls that write, what the call says */
    FAMDRIZE_ISSUED = 1,         /* serial, 0 */
    FAMDRIZE_CACHE_READ = 2,     /* version, value */
    FAMDRIZE_STORE_READ = 3,     /* version, value */
    FAMDRIZE_COMMITTED = 4,      /* serial, value */
    FAMDRIZE_REJECTED = 5,       /* serial, 0 */
    FAMDRIZE_GRANTED = 6,        /* serial, 0 */
    FAMDRIZE_NOT_HELD = 7,       /* serial, 0 */
    FAMDRIZE_LAYOUT_CHANGED = 8, /* serial, 0 */
    FAMDRIZE_INTERVAL = 9,       /* first entry, last entry */

    FAMDRIZE_TABLE_LENGTH = 21,
    FAMDRIZE_TABLE_RULES = 22,
    FAMDRIZE_NO_MARK = 23,
    FAMDRIZE_CUT_SHORT = 24,
    FAMDRIZE_UNKNOWN_FIELD = 25,
    FAMDRIZE_UNKNOWN_KIND = 26,
    FAMDRIZE_WRONG_FIELDS = 27,
    FAMDRIZE_OUT_OF_RANGE = 28,
    FAMDRIZE_NOT_OWNER = 29,
    FAMDRIZE_NO_LIVE_GUARD = 30,
    FAMDRIZE_ALREADY_REQUESTED = 31,
    FAMDRIZE_NO_SUCH_REQUEST = 32,
    FAMDRIZE_PLACES_TAKEN = 33, /* not in force since 0.6.0; no call gives it */
    FAMDRIZE_NO_SERIAL_LEFT = 34,
    FAMDRIZE_WRONG_BOUNDARY = 35,
    FAMDRIZE_BUFFER_SHORT = 36,
    FAMDRIZE_SESSION_TOO_LONG = 37,
    FAMDRIZE_NO_PLACE_LEFT = 38,
    FAMDRIZE_NO_ANSWERED_READ = 39
};

/* Why a run stopped. */
enum famdrize_why {
    FAMDRIZE_WHY_END = 0,
    FAMDRIZE_WHY_SPENT = 9,
    /* the run is refused: 0 records, place 0, nothing altered */
    FAMDRIZE_WHY_TABLE_LENGTH = FAMDRIZE_TABLE_LENGTH,
    FAMDRIZE_WHY_TABLE_RULES = FAMDRIZE_TABLE_RULES,
    FAMDRIZE_WHY_NO_MARK = FAMDRIZE_NO_MARK,
    FAMDRIZE_WHY_SESSION_TOO_LONG = FAMDRIZE_SESSION_TOO_LONG,
    /* the record at the place is refused; the steps before it keep their effect */
    FAMDRIZE_WHY_CUT_SHORT = FAMDRIZE_CUT_SHORT,
    FAMDRIZE_WHY_UNKNOWN_FIELD = FAMDRIZE_UNKNOWN_FIELD,
    FAMDRIZE_WHY_UNKNOWN_KIND = FAMDRIZE_UNKNOWN_KIND,
    FAMDRIZE_WHY_WRONG_FIELDS = FAMDRIZE_WRONG_FIELDS
};

/* Functions that stand in this header, and not in the library. */
#if defined(__cplusplus) || (defined(__STDC_VERSION__) && __STDC_VERSION__ >= 199901L)
#define FAMDRIZE_INLINE static inline
#elif defined(__GNUC__)
#define FAMDRIZE_INLINE static __inline__
#else
#define FAMDRIZE_INLINE static
#endif

/* The words for a kind of step; never null. */
FAMDRIZE_INLINE const char *famdrize_kind_words(uint32_t kind)
{
    switch (kind) {
    case FAMDRIZE_ASSIGN: return "assign";
    case FAMDRIZE_RELEASE: return "release";
    case FAMDRIZE_REQUEST_GUARD: return "ask for a guard";
    case FAMDRIZE_READ: return "read";
    case FAMDRIZE_WRITE: return "write";
    case FAMDRIZE_DELIVER: return "arrive";
    case FAMDRIZE_RESPOND: return "answer";
    case FAMDRIZE_ABANDON: return "give up";
    case FAMDRIZE_LOSE: return "lose";
    case FAMDRIZE_SPLIT: return "split";
    case FAMDRIZE_MERGE: return "merge";
    case FAMDRIZE_RESTART_TABLET: return "tablet restart";
    case FAMDRIZE_RESTART_PLAYER: return "player restart";
    case FAMDRIZE_FIND_INTERVAL: return "how far a guard reaches";
    case FAMDRIZE_LOAD: return "load";
    default: return "no kind of step";
    }
}

/* The words for the code of a reply or refusal; never null. */
FAMDRIZE_INLINE const char *famdrize_code_words(uint32_t code)
{
    switch (code) {
    case FAMDRIZE_DONE: return "done";
    case FAMDRIZE_ISSUED: return "serial issued";
    case FAMDRIZE_CACHE_READ: return "read from memory";
    case FAMDRIZE_STORE_READ: return "read from the store";
    case FAMDRIZE_COMMITTED: return "committed";
    case FAMDRIZE_REJECTED: return "turned back";
    case FAMDRIZE_GRANTED: return "guard granted";
    case FAMDRIZE_NOT_HELD: return "not held";
    case FAMDRIZE_LAYOUT_CHANGED: return "layout changed";
    case FAMDRIZE_INTERVAL: return "guard interval";
    case FAMDRIZE_TABLE_LENGTH: return "a table of the wrong length";
    case FAMDRIZE_TABLE_RULES: return "a table that breaks a rule";
    case FAMDRIZE_NO_MARK: return "the session's mark is wrong or missing";
    case FAMDRIZE_CUT_SHORT: return "a record cut short, or no byte";
    case FAMDRIZE_UNKNOWN_FIELD: return "bit 6 or 7 of a record's map stands";
    case FAMDRIZE_UNKNOWN_KIND: return "a kind of step not in force";
    case FAMDRIZE_WRONG_FIELDS: return "the kind is missing, or other fields than the kind's";
    case FAMDRIZE_OUT_OF_RANGE:
        return "player above 7, an empty range or one past 256, split or merge at entry 0, or a serial out of range";
    case FAMDRIZE_NOT_OWNER: return "not owner of every entry";
    case FAMDRIZE_NO_LIVE_GUARD: return "no live guard";
    case FAMDRIZE_ALREADY_REQUESTED: return "a pending guard request of this player shares an entry";
    case FAMDRIZE_NO_SUCH_REQUEST: return "no request that this step fits";
    case FAMDRIZE_PLACES_TAKEN: return "not in force since 0.6.0: all 64 places for requests were taken";
    case FAMDRIZE_NO_SERIAL_LEFT: return "the last serial, 4,000,000, was issued";
    case FAMDRIZE_WRONG_BOUNDARY: return "split at a boundary, or merge where none is";
    case FAMDRIZE_BUFFER_SHORT: return "a buffer shorter than what is to be written";
    case FAMDRIZE_SESSION_TOO_LONG: return "a session of more than 16,384 bytes";
    case FAMDRIZE_NO_PLACE_LEFT:
        return "the 16 common places for requests are taken, and the player has 6 requests or more or is the loader";
    case FAMDRIZE_NO_ANSWERED_READ: return "the player has no answered read";
    default: return "no code of a reply";
    }
}

/* The words for the reason for which a run stopped; never null. */
FAMDRIZE_INLINE const char *famdrize_why_words(uint32_t why)
{
    switch (why) {
    case FAMDRIZE_WHY_END: return "at the session's end";
    case FAMDRIZE_WHY_SPENT: return "the budget or the places for replies are spent";
    case FAMDRIZE_WHY_TABLE_LENGTH:
    case FAMDRIZE_WHY_TABLE_RULES:
    case FAMDRIZE_WHY_NO_MARK:
    case FAMDRIZE_WHY_SESSION_TOO_LONG:
    case FAMDRIZE_WHY_CUT_SHORT:
    case FAMDRIZE_WHY_UNKNOWN_FIELD:
    case FAMDRIZE_WHY_UNKNOWN_KIND:
    case FAMDRIZE_WHY_WRONG_FIELDS: return famdrize_code_words(why);
    default: return "no reason of a run";
    }
}

/* A code (enum famdrize_code) and two numbers. */
typedef struct {
    uint32_t code;
    uint32_t a;
    uint32_t b;
} famdrize_reply;

/* What stands at a place of a session: code 0 with the record's length in bytes and the step by its fields, those that its kind lacks 0;
 * or the code of a refusal and zeros. */
typedef struct {
    uint32_t code;
    uint32_t length;
    uint32_t kind;
    uint32_t player;
    uint32_t entry; /* or a range's low */
    uint32_t high;
    uint32_t value;
    uint32_t serial;
} famdrize_decoded;

/* Why a run stopped (enum famdrize_why), the number of records taken, and the byte place just after them. */
typedef struct {
    uint32_t why;
    uint32_t records;
    uint32_t place;
} famdrize_report;

/* Code 0 with the guard of an entry, and the first and the last entry of its guard interval; or the code of a refusal and zeros. */
typedef struct {
    uint32_t code;
    uint32_t guard; /* a serial, FAMDRIZE_OPEN_GUARD or FAMDRIZE_BARRED */
    uint32_t first;
    uint32_t last;
} famdrize_interval;

/* A request in flight, as one place of the lent list. A place that is not used has serial 0. A mark stands where its number is not 0. */
typedef struct {
    uint32_t serial;
    uint8_t player; /* 0 to 7; FAMDRIZE_LOADER of a load, which is of kind 5 and carries 0 */
    uint8_t kind;   /* 3, 4 or 5 */
    uint8_t low;  /* the entry of a read or write, the first entry of a guard request */
    uint16_t high;
    uint32_t value;
    uint32_t guard; /* the guard carried */
    uint8_t overlapped;
    uint8_t delivered;
    uint8_t abandoned;
    uint32_t first; /* the outcome: 1 or 2 and 0, of a read version and value */
    uint32_t second;
} famdrize_request;

/* ---- the two tables: the store's of 1,280 words, the players' of 9,489 */

/* Makes both tables fresh: 0 0 0, or 21. */
famdrize_reply famdrize_fresh(uint32_t *store, size_t store_words, uint32_t *players, size_t players_words);

/* Whether both tables keep the rules: 0 0 0, or 21, 22. */
famdrize_reply famdrize_check(const uint32_t *store, size_t store_words, const uint32_t *players, size_t players_words);

/* Takes the step of this kind with these fields. First 26 where the kind is not in force, 27 where a field that the kind lacks is not 0;
 * then the step's own: 21, 22, 28, 29, 30, 31, 32, 35, 38, 34, or one of the replies 0 to 9. */
famdrize_reply famdrize_step(uint32_t *store, size_t store_words, uint32_t *players, size_t players_words, uint8_t kind, uint8_t player,
                             uint8_t entry, uint16_t high, uint32_t value, uint32_t serial);

/* Takes the steps of a session's records, at most `budget` of them and at most as many as the list has whole places, of three words each;
 * their replies are put into the list in order, and places not filled keep what they had. A refused step is taken and replied to, and the
 * run goes on. Why: 21, 22, 37, 23 refuse the run, which then reports 0 records and place 0 and alters nothing; 0 at the session's end;
 * 9 where budget or list is spent; 24 to 27 where a record is refused, and the steps before it keep their effect. */
famdrize_report famdrize_run(uint32_t *store, size_t store_words, uint32_t *players, size_t players_words, const uint8_t *session,
                             size_t session_bytes, uint32_t budget, uint32_t *replies, size_t replies_words);

/* The reply that famdrize_step would give to the step of this kind with these fields, for every kind and refusal: 26, 27, 21 and 22 too. Neither
 * table is altered. It takes about 44 KB of stack, for copies of the tables. */
famdrize_reply famdrize_preview(const uint32_t *store, size_t store_words, const uint32_t *players, size_t players_words, uint8_t kind,
                                uint8_t player, uint8_t entry, uint16_t high, uint32_t value, uint32_t serial);

/* The report that famdrize_run would give, and the replies of the records that it would take, where a budget above FAMDRIZE_PREVIEW_RECORDS
 * counts as that many: 9 with bytes left after them. Neither table is altered; only the list is written, of which places not filled keep what
 * they had, and where the run would be refused not even that. It takes about 44 KB of stack, for copies of the tables. */
famdrize_report famdrize_preview_run(const uint32_t *store, size_t store_words, const uint32_t *players, size_t players_words,
                                     const uint8_t *session, size_t session_bytes, uint32_t budget, uint32_t *replies, size_t replies_words);

/* The share of the player's answered reads that came from its memory, in thousandths: 0, quotient, remainder of 1,000 times the reads from
 * memory divided by the answered reads. Else the first that applies of 21, 22, 28 where the player is above 7, also for FAMDRIZE_LOADER, and 39
 * where it has no answered read. Neither table is altered.
 * The quotient is 0 to 1000, and 1000 only where every read came from memory. It is cut off, not rounded: where the remainder is not 0, the
 * share is more, by less than a thousandth. printf("%u.%u %%", r.a / 10, r.a % 10) shows it: of one read in three, 0 333 1, it prints 33.3 %. */
famdrize_reply famdrize_share(const uint32_t *store, size_t store_words, const uint32_t *players, size_t players_words, uint8_t player);

/* ---- records and the session's mark */

/* The record at the start of these bytes; bytes after it are ignored. Refusals: 24 if empty, 25, 24, 27 if the kind is missing, 26, 27. */
famdrize_decoded famdrize_decode(const uint8_t *part, size_t part_bytes);

/* Writes the record of the step of this kind with these fields to the start of the buffer, and keeps what follows: 0, its length (3 to 8),
 * 0; or 26, 27 as famdrize_step, then 36. A step that would be refused can be written. */
famdrize_reply famdrize_encode(uint8_t kind, uint8_t player, uint8_t entry, uint16_t high, uint32_t value, uint32_t serial, uint8_t *out,
                               size_t out_bytes);

/* Writes the mark, 52 53 4C 31, to the start of the buffer, and keeps what follows: 0 4 0, or 36. */
famdrize_reply famdrize_put_mark(uint8_t *out, size_t out_bytes);

/* Whether the session begins with the mark. */
bool famdrize_marked(const uint8_t *session, size_t session_bytes);

/* ---- the requests in flight as a lent list of records */

/* How many pending requests of the player the list holds: 0, count, 0; or 21 unless it has 64 places, then 28, also for FAMDRIZE_LOADER.
 * Nothing else is tested. */
famdrize_reply famdrize_waiting(const famdrize_request *requests, size_t requests_places, uint8_t player);

/* ---- the store used alone: its table of 1,280 words, without any player. Serials are 1 to 4,000,000. */

/* Makes the table fresh: 0 0 0, or 21. */
famdrize_reply famdrize_store_fresh(uint32_t *store, size_t store_words);

/* Whether the table keeps the rules: 0 0 0, or 21, 22. */
famdrize_reply famdrize_store_check(const uint32_t *store, size_t store_words);

/* The same, where `last` is the last serial issued. */
famdrize_reply famdrize_store_check_at(const uint32_t *store, size_t store_words, uint32_t last);

/* Sets a guard, numbered by its serial, over entries low up to high: 0 1 0; 0 2 0 where they do not lie in one tablet; or 21, 22, 28. */
famdrize_reply famdrize_store_set_guard(uint32_t *store, size_t store_words, uint8_t low, uint16_t high, uint32_t serial);

/* The entry's version and value: 0, version, value; or 21, 22. */
famdrize_reply famdrize_store_read(const uint32_t *store, size_t store_words, uint8_t entry);

/* The guard of the entry, and the first and the last entry of its guard interval: code 0; or 21, 22 and zeros. The interval is the longest
 * row of neighbouring entries, this one among them, that have one guard: a serial, FAMDRIZE_OPEN_GUARD or FAMDRIZE_BARRED. Boundaries do not
 * end it. */
famdrize_interval famdrize_store_find_interval(const uint32_t *store, size_t store_words, uint8_t entry);

/* A write that carries a guard, which is any number: 0 1 0 where it commits, since that guard is the entry's and not FAMDRIZE_BARRED; else
 * 0 2 0; or 21, 22, 28. A load carries FAMDRIZE_OPEN_GUARD. The same write handed in twice may commit twice. */
famdrize_reply famdrize_store_write(uint32_t *store, size_t store_words, uint8_t entry, uint32_t value, uint32_t serial, uint32_t guard);

/* Sets a boundary before the entry: 0 0 0; or 21, 22, 28 at entry 0, 35 where there is one. */
famdrize_reply famdrize_store_split(uint32_t *store, size_t store_words, uint8_t entry);

/* Removes the boundary before the entry: 0 0 0; or 21, 22, 28 at entry 0, 35 where there is none. */
famdrize_reply famdrize_store_merge(uint32_t *store, size_t store_words, uint8_t entry);

/* The guards of the tablet that holds the entry become FAMDRIZE_BARRED: 0 0 0; or 21, 22. */
famdrize_reply famdrize_store_restart(uint32_t *store, size_t store_words, uint8_t entry);

#ifdef __cplusplus
}
#endif

#endif
