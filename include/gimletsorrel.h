/* The certifier for package-auction prices, for callers in C and C++. docs/FORMAT.md has the layouts and the questions.

   The library is for x86-64 and the System V calling convention (Linux). `bin/library` proves it and writes it, as libgimletsorrel.a and as
   libgimletsorrel.so, to target/staticlib; link with

       cc -Iinclude yours.c target/staticlib/libgimletsorrel.a

   It needs memcpy and memset of the C library, and nothing else.

   Every function takes any bytes, comes to an end, and answers by value. It reads the bytes that it is given and no others, keeps no
   pointer, allocates nothing, and has no state: any number of threads may call at once. All that is proved of the answers is said in
   docs/TRUST.md; that these declarations fit the library is tested and not proved.

   A pointer must not be null, even where the length is 0: give the address of anything then. The `len` bytes from it on must be there
   to read, and must not change during the call. */

#ifndef GIMLETSORREL_H
#define GIMLETSORREL_H

#include <stddef.h>
#include <stdint.h>

#ifdef __cplusplus
extern "C" {
#endif

/* The version that these declarations are of; gimletsorrel_version() says which the library is. */
#define GIMLETSORREL_VERSION_MAJOR 0
#define GIMLETSORREL_VERSION_MINOR 1
#define GIMLETSORREL_VERSION_PATCH 0
#define GIMLETSORREL_VERSION (10000 * GIMLETSORREL_VERSION_MAJOR + 100 * GIMLETSORREL_VERSION_MINOR + GIMLETSORREL_VERSION_PATCH)

/* What an answer's number says. Any but 0 is a refusal: the first of FORMAT's questions that is answered no. */
enum gimletsorrel_number {
    GIMLETSORREL_ACCEPTED = 0,              /* no question is answered no */
    GIMLETSORREL_BOOK_VERSION = 1,          /* fewer than three bytes, or the first is not 1 */
    GIMLETSORREL_BOOK_LENGTH = 2,           /* the book's length, or its numbers of kinds, clients or bids */
    GIMLETSORREL_BOOK_TABLES = 3,           /* a supply, a reserve or a status out of range */
    GIMLETSORREL_BOOK_BIDS = 4,             /* a bid's client, hours or amount; or nine bids of a client */
    GIMLETSORREL_BOOK_RESERVES = 5,         /* an amount below the reserves of its hours */
    GIMLETSORREL_SHEET_LENGTH = 6,          /* the sheet's version, length or number of winners */
    GIMLETSORREL_SHEET_RANGES = 7,          /* a figure of the sheet out of range */
    GIMLETSORREL_WINNERS_COMBINATION = 8,   /* the winners are no combination by rising client */
    GIMLETSORREL_WINNERS_VALUE = 9,         /* another combination is worth more */
    GIMLETSORREL_DISCOUNT_RESERVE = 10,     /* a discount takes its winner below the reserves */
    GIMLETSORREL_DISCOUNT_SURPLUS = 11,     /* the discounts of a set exceed its surplus: others could complain */
    GIMLETSORREL_MULTIPLIERS_COVER = 12,    /* a winner's Z and Y do not reach s */
    GIMLETSORREL_MULTIPLIERS_TOTAL = 13,    /* what the multipliers vouch for is not the sum of the discounts */
    GIMLETSORREL_MULTIPLIERS_DISTANCE = 14, /* a winner's distance is not what its multipliers make it */
    GIMLETSORREL_MULTIPLIERS_SLACK = 15,    /* a multiplier that is not zero on a bound that is not reached */
    GIMLETSORREL_DISCARD = 16               /* the discard byte names a client that is not there */
};

/* The greatest value of a book. */
struct gimletsorrel_worth {
    uint32_t number; /* 0, or the number of the refusal: 1 to 5, or 16 */
    uint32_t value;  /* the greatest value in credits; 0 after a refusal */
};

/* The greatest value of a book, and for each set of its clients how much less it is without them. After a refusal everything but the
   number is 0. */
struct gimletsorrel_sigma_table {
    uint32_t number;    /* 0, or the number of the refusal: 1 to 5 */
    uint64_t value;     /* the greatest value in credits */
    uint64_t sigma[64]; /* by the set's number, whose bit 0 is client 1; 0 for numbers that are no set of the book's clients */
};

/* The answer to a call. After a refusal everything but the number is 0. */
struct gimletsorrel_prices {
    uint32_t number;    /* 0 for acceptance, or the number of the first question answered no: 1 to 15 */
    uint32_t w;         /* how many winners there are: 0 to 6 */
    uint32_t q;         /* the denominator of the prices: 1 to 10,000 */
    uint64_t prices[6]; /* place k: q times the price of winner k in credits; places from w on are 0 */
};

/* Text of at most 128 bytes, in ASCII; no zero byte ends it. */
struct gimletsorrel_text {
    uint8_t bytes[128]; /* the first `len` are the text, and the others 0 */
    size_t len;
};

/* The library's version as one number, 10000 x major + 100 x minor + patch: GIMLETSORREL_VERSION, where the two fit. */
uint32_t gimletsorrel_version(void);

/* The greatest value of a book with clients discarded: bit 0 of `discard` is client 1. What follows the book is not looked at. */
struct gimletsorrel_worth gimletsorrel_greatest_value(const uint8_t *book, size_t len, uint8_t discard);

/* The greatest value of a book, and what each set of its clients adds to it. What follows the book is not looked at. */
struct gimletsorrel_sigma_table gimletsorrel_surpluses(const uint8_t *book, size_t len);

/* The answer to a call: a book, and the sheet from the byte after it to the end. */
struct gimletsorrel_prices gimletsorrel_judge_sheet(const uint8_t *input, size_t len);

/* What the program prints for a call: its price list, or its refusal. */
struct gimletsorrel_text gimletsorrel_price_list(const uint8_t *input, size_t len);

#ifdef __cplusplus
}
#endif

#endif
