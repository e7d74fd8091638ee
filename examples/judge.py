#!/usr/bin/env python3
"""Judges a call through the library and prints what the program prints, made from the answer's fields. Needs Python 3.8 or newer alone.

    python3 examples/judge.py calls/spring.call
"""
import ctypes
import sys
from pathlib import Path

LIBRARY = Path(__file__).resolve().parent.parent / "target/staticlib/libgimletsorrel.so"
VERSION = 100  # 0.1.0: 10000 x major + 100 x minor + patch
ACCEPTED = 0


class Prices(ctypes.Structure):
    """The answer to a call, as include/gimletsorrel.h has it."""

    _fields_ = [("number", ctypes.c_uint32), ("w", ctypes.c_uint32), ("q", ctypes.c_uint32), ("prices", ctypes.c_uint64 * 6)]


def opened():
    """The library, with the types of the functions that are called: ctypes takes int for what is not said."""
    if not LIBRARY.exists():
        sys.exit(f"judge: {LIBRARY} is missing; 'bin/library' proves and writes it")
    library = ctypes.CDLL(str(LIBRARY))
    library.gimletsorrel_version.argtypes = []
    library.gimletsorrel_version.restype = ctypes.c_uint32
    library.gimletsorrel_judge_sheet.argtypes = [ctypes.c_char_p, ctypes.c_size_t]
    library.gimletsorrel_judge_sheet.restype = Prices
    if library.gimletsorrel_version() != VERSION:
        sys.exit(f"judge: the library is version {library.gimletsorrel_version()}, and this is written for {VERSION}")
    return library


def bid_at(call, bid):
    """Where the client of a bid stands in an accepted call; bids count from 1."""
    kinds = call[3]
    clients = call[4 + 3 * kinds]
    return 6 + 3 * kinds + clients + (bid - 1) * (kinds + 5)


def price_list(call, answer):
    if answer.number != ACCEPTED:
        return [f"refused {answer.number}"]
    # the sheet stands after the book, and the winners' bid numbers from its fourth byte on
    sheet = call[1] * 256 + call[2]
    bids = call[sheet + 4 : sheet + 4 + answer.w]
    return [f"accepted {answer.w} {answer.q}"] + [f"{call[bid_at(call, bid)]} {bid} {price}" for bid, price in zip(bids, answer.prices)]


def main(words):
    if len(words) != 1:
        sys.exit(__doc__)
    call = Path(words[0]).read_bytes()
    print("\n".join(price_list(call, opened().gimletsorrel_judge_sheet(call, len(call)))))


main(sys.argv[1:])
