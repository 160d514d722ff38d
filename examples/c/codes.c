/* The words for every code of a reply or refusal, for every reason for which a run stops, and for every kind of step; the numbers that the
 * header names. codes.txt is what it prints. */
#include "famdrize.h"

#include <stdio.h>
#include <string.h>

/* One line for each number that has words. */
static void print(const char *title, const char *(*words)(uint32_t))
{
    const char *unknown = words(UINT32_MAX);
    uint32_t number;

    puts(title);
    for (number = 0; number <= 255; number++)
        if (strcmp(words(number), unknown) != 0)
            printf("%u %s\n", (unsigned)number, words(number));
}

int main(void)
{
    print("codes of replies and refusals", famdrize_code_words);
    print("reasons of a run", famdrize_why_words);
    print("kinds", famdrize_kind_words);
    puts("numbers");
    printf("words of the store's table: %d\n", FAMDRIZE_STORE_WORDS);
    printf("words of the players' table: %d\n", FAMDRIZE_PLAYERS_WORDS);
    printf("places for requests: %d\n", FAMDRIZE_REQUESTS);
    printf("places of a player's own: %d\n", FAMDRIZE_OWN_PLACES);
    printf("common places: %d\n", FAMDRIZE_COMMON_PLACES);
    printf("bytes of the longest session: %d\n", FAMDRIZE_SESSION_BYTES);
    printf("bytes of the longest record: %d\n", FAMDRIZE_RECORD_BYTES);
    printf("most records of a session: %d\n", FAMDRIZE_SESSION_RECORDS);
    printf("most records of a preview: %d\n", FAMDRIZE_PREVIEW_RECORDS);
    printf("last serial: %d\n", FAMDRIZE_LAST_SERIAL);
    printf("highest count of reads: %u\n", FAMDRIZE_LAST_COUNT);
    printf("an open guard: %u\n", FAMDRIZE_OPEN_GUARD);
    printf("barred: %u\n", FAMDRIZE_BARRED);
    printf("the loader: %d\n", FAMDRIZE_LOADER);
    printf("bytes of the mark: %d\n", FAMDRIZE_MARK_BYTES);
    printf("words of a reply: %d\n", FAMDRIZE_REPLY_WORDS);
    return 0;
}
