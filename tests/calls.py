#!/usr/bin/env python3
"""calls.py LIBRARY.so: gives the library each list of calls in tests/vectors, NAME.calls, and compares what it answers with NAME.out, byte for byte.

A list begins with a new store of 1,024 records and an area of 65,536 bytes. Its lines go to `timetable_line`, except for these
(HEX: bytes in hexadecimal, none if it is missing):

    @xml HEX     these bytes go to `timetable_load_xml`
    @area N      from now on an area of N bytes
    @records N   a new store of N records
    @table HEX   from now on a table of these bytes
"""

import sys

from library import Broken, Slice, Store
from vectors import compare


def given(store, text):
    """What one line of a list answers."""
    word, _, rest = text.partition(b" ")
    if word == b"@area":
        store.lend_area(int(rest))
    elif word == b"@records":
        store.start(int(rest))
    elif word == b"@table":
        store.table = Slice(bytes.fromhex(rest.decode()))
    elif word == b"@xml":
        return store.answer(store.load_xml(bytes.fromhex(rest.decode())))
    elif word.startswith(b"@"):
        raise Broken(f"no call of the library: {text.decode()}")
    else:
        return store.answer(store.line(text))
    return b""


def answers(calls):
    """What a list answers on a new store; where a call does what it must not, the rest is what it did."""
    store, answered = Store(sys.argv[1]), []
    try:
        for text in calls.split(b"\n")[:-1]:
            answered.append(given(store, text))
    except Broken as broken:
        answered.append(str(broken).encode())
    return b"".join(answered)


if __name__ == "__main__":
    if len(sys.argv) != 2:
        sys.exit(__doc__)
    compare(".calls", answers)
