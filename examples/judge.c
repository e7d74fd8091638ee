/* Judges a call through the library and prints what the program prints, made from the answer's fields.

       cc -std=c99 -Iinclude -o judge examples/judge.c target/staticlib/libgimletsorrel.a
       ./judge calls/spring.call */

#include "gimletsorrel.h"

#include <inttypes.h>
#include <stdio.h>

/* The longest call has 1,406 bytes, so one more decides as much as any number would. */
enum { MOST = 1407 };

/* Where the client of a bid stands in an accepted call; bids count from 1. */
static size_t bid_at(const uint8_t *call, size_t bid)
{
    size_t kinds = call[3];
    size_t clients = call[4 + 3 * kinds];
    return 6 + 3 * kinds + clients + (bid - 1) * (kinds + 5);
}

/* The lines of an accepted call: its winners stand from the fourth byte of the sheet on, and the sheet after the book. */
static void print_prices(const uint8_t *call, const struct gimletsorrel_prices *answer)
{
    size_t sheet = (size_t)call[1] * 256 + call[2];
    printf("accepted %" PRIu32 " %" PRIu32 "\n", answer->w, answer->q);
    for (uint32_t k = 0; k < answer->w; k++) {
        unsigned bid = call[sheet + 4 + k];
        unsigned client = call[bid_at(call, bid)];
        printf("%u %u %" PRIu64 "\n", client, bid, answer->prices[k]);
    }
}

int main(int count, char **words)
{
    static uint8_t call[MOST];
    FILE *file = count == 2 ? fopen(words[1], "rb") : NULL;
    if (file == NULL) {
        fprintf(stderr, "judge: give the name of a call that can be read\n");
        return 2;
    }
    size_t len = fread(call, 1, MOST, file);
    int failed = ferror(file);
    fclose(file);
    if (failed) {
        fprintf(stderr, "judge: the call cannot be read\n");
        return 2;
    }

    struct gimletsorrel_prices answer = gimletsorrel_judge_sheet(call, len);
    if (answer.number == GIMLETSORREL_ACCEPTED)
        print_prices(call, &answer);
    else
        printf("refused %" PRIu32 "\n", answer.number);
    return fflush(stdout) == 0 ? 0 : 2;
}
