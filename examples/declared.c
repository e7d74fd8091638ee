/* Holds include/gimletsorrel.h to the library: sizes and places of the fields as it has them, and each function's answers to a small
   book. Silent, with status 0, where all is as expected. C and C++ both. */

#include "gimletsorrel.h"

#include <stdio.h>
#include <string.h>

/* An array of a negative size stops the compiler. */
#define HOLDS(name, fact) typedef char name[(fact) ? 1 : -1]
#define FIELD(of, name, place, size)                                                                                                           \
    HOLDS(of##_##name, offsetof(struct gimletsorrel_##of, name) == (place) && sizeof((struct gimletsorrel_##of *)0)->name == (size))

HOLDS(worth_size, sizeof(struct gimletsorrel_worth) == 8);
FIELD(worth, number, 0, 4);
FIELD(worth, value, 4, 4);
HOLDS(sigma_table_size, sizeof(struct gimletsorrel_sigma_table) == 528);
FIELD(sigma_table, number, 0, 4);
FIELD(sigma_table, value, 8, 8);
FIELD(sigma_table, sigma, 16, 512);
HOLDS(prices_size, sizeof(struct gimletsorrel_prices) == 64);
FIELD(prices, number, 0, 4);
FIELD(prices, w, 4, 4);
FIELD(prices, q, 8, 4);
FIELD(prices, prices, 16, 48);
HOLDS(text_size, sizeof(struct gimletsorrel_text) == 136);
FIELD(text, bytes, 0, 128);
FIELD(text, len, 128, 8);

/* Two hours at a reserve of 10; clients 1 and 2 want one each for 60 and 50, client 3 both for 70. */
static const uint8_t book[] = {1, 0, 30, 1, 2, 0, 10, 3, 0, 0, 0, 3, 1, 1, 0, 0, 0, 60, 2, 1, 0, 0, 0, 50, 3, 2, 0, 0, 0, 70};

static int failures;

static void expect(int fact, const char *what)
{
    if (!fact) {
        fprintf(stderr, "declared: %s\n", what);
        failures++;
    }
}

static int is_worth(size_t len, uint8_t discard, uint32_t number, uint32_t value)
{
    struct gimletsorrel_worth worth = gimletsorrel_greatest_value(book, len, discard);
    return worth.number == number && worth.value == value;
}

static int is_surplus(uint8_t set, uint64_t sigma)
{
    struct gimletsorrel_sigma_table table = gimletsorrel_surpluses(book, sizeof book);
    return table.number == 0 && table.value == 110 && table.sigma[set] == sigma;
}

static int is_refused(size_t len, uint32_t number)
{
    static const uint64_t zeros[6] = {0};
    struct gimletsorrel_prices answer = gimletsorrel_judge_sheet(book, len);
    int rest_is_zero = answer.w == 0 && answer.q == 0 && memcmp(answer.prices, zeros, sizeof zeros) == 0;
    return answer.number == number && rest_is_zero;
}

static int is_text(size_t len, const char *expected)
{
    static const uint8_t zeros[128] = {0};
    struct gimletsorrel_text text = gimletsorrel_price_list(book, len);
    size_t size = strlen(expected);
    return text.len == size && memcmp(text.bytes, expected, size) == 0 && memcmp(text.bytes + size, zeros, 128 - size) == 0;
}

int main(void)
{
    expect(gimletsorrel_version() == GIMLETSORREL_VERSION, "the version");
    expect(is_worth(sizeof book, 0, 0, 110), "the greatest value of all");
    expect(is_worth(sizeof book, 1, 0, 70), "the greatest value without client 1");
    expect(is_worth(sizeof book, 5, 0, 50), "the greatest value without clients 1 and 3");
    expect(is_worth(sizeof book, 255, GIMLETSORREL_DISCARD, 0), "a discard byte that names too many");
    expect(is_worth(0, 0, 1, 0), "the greatest value of nothing");
    expect(is_surplus(0, 0), "the surplus of nobody");
    expect(is_surplus(1, 40), "the surplus of client 1");
    expect(is_surplus(5, 60), "the surplus of clients 1 and 3");
    expect(is_surplus(63, 0), "the surplus of clients that are not there");
    expect(is_refused(sizeof book, GIMLETSORREL_SHEET_LENGTH), "a book without a sheet");
    expect(is_refused(0, GIMLETSORREL_BOOK_VERSION), "no call at all");
    expect(is_text(sizeof book, "refused 6\n"), "the text of a book without a sheet");
    expect(is_text(0, "refused 1\n"), "the text of no call at all");
    return failures == 0 ? 0 : 1;
}
