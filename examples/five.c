/* Prints the price list of the call on standard input, or its refusal. */
#include "gimletsorrel.h"
#include <stdio.h>

int main(void)
{
    static uint8_t call[1407]; /* the longest call has 1,406 bytes */
    size_t len = fread(call, 1, sizeof call, stdin);
    struct gimletsorrel_text list = gimletsorrel_price_list(call, len);
    fwrite(list.bytes, 1, list.len, stdout);
    return fflush(stdout) == 0 ? 0 : 3;
}
