// Judges a call through the library and prints what the program prints, made from the answer's fields.
//
//     c++ -std=c++11 -Iinclude -o judge examples/judge.cpp target/staticlib/libgimletsorrel.a
//     ./judge calls/spring.call

#include "gimletsorrel.h"

#include <fstream>
#include <iostream>
#include <iterator>
#include <vector>

namespace {

using Bytes = std::vector<std::uint8_t>;

// Where the client of a bid stands in an accepted call; bids count from 1.
std::size_t bid_at(const Bytes &call, std::size_t bid)
{
    const std::size_t kinds = call[3];
    const std::size_t clients = call[4 + 3 * kinds];
    return 6 + 3 * kinds + clients + (bid - 1) * (kinds + 5);
}

// The lines of an accepted call: its winners stand from the fourth byte of the sheet on, and the sheet after the book.
void print_prices(const Bytes &call, const gimletsorrel_prices &answer)
{
    const std::size_t sheet = call[1] * 256u + call[2];
    std::cout << "accepted " << answer.w << ' ' << answer.q << '\n';
    for (std::uint32_t k = 0; k < answer.w; k++) {
        const unsigned bid = call[sheet + 4 + k];
        const unsigned client = call[bid_at(call, bid)];
        std::cout << client << ' ' << bid << ' ' << answer.prices[k] << '\n';
    }
}

} // namespace

int main(int count, char **words)
{
    if (gimletsorrel_version() != GIMLETSORREL_VERSION) {
        std::cerr << "judge: the library is not the version that the header is of\n";
        return 2;
    }
    std::ifstream file;
    if (count == 2)
        file.open(words[1], std::ios::binary);
    const Bytes call{std::istreambuf_iterator<char>(file), std::istreambuf_iterator<char>()};
    if (!file.is_open() || file.bad()) {
        std::cerr << "judge: give the name of a call that can be read\n";
        return 2;
    }

    // The address of nothing may be null, and the library wants one that is not.
    const std::uint8_t nothing = 0;
    const gimletsorrel_prices answer = gimletsorrel_judge_sheet(call.empty() ? &nothing : call.data(), call.size());
    if (answer.number == GIMLETSORREL_ACCEPTED)
        print_prices(call, answer);
    else
        std::cout << "refused " << answer.number << '\n';
    return std::cout.flush() ? 0 : 2;
}
