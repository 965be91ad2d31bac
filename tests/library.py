"""The library for Python: a store that is lent to its calls, and what each call answers."""

import ctypes
import os

RECORDS, AREA_BYTES = 1024, 65536
KEPT = 16  # bytes after each slice, which no call may touch


class Broken(Exception):
    """What a call did against its promise."""


class Slice:
    """Bytes that are lent."""

    def __init__(self, lent):
        self.length = len(lent)
        self.memory = (ctypes.c_uint8 * (self.length + KEPT)).from_buffer_copy(bytes(lent) + bytes(KEPT))


def table_bytes(records):
    return 4 + 32 * records


class Store:
    def __init__(self, path):
        self.library = ctypes.CDLL(os.path.abspath(path))
        self.library.timetable_state_bytes.restype = ctypes.c_size_t
        self.start(RECORDS)
        self.lend_area(AREA_BYTES)

    def start(self, records):
        """A new state, and an empty table."""
        self.state = Slice(bytes(self.library.timetable_state_bytes()))
        self.table = Slice(bytes(table_bytes(records)))

    def lend_area(self, size):
        self.area = Slice(bytes(size))

    def call(self, name, written, *read):
        """The number that a function of the library returns. It may write the slices `written`, the area last; refused, it must leave every byte as it was."""
        slices = written[:-1] + read + written[-1:]
        function = getattr(self.library, name)
        function.restype, function.argtypes = ctypes.c_int64, [ctypes.c_void_p, ctypes.c_size_t] * len(slices)
        before = [bytes(lent.memory) for lent in slices]
        result = function(*[word for lent in slices for word in (ctypes.addressof(lent.memory), lent.length)])
        for number, (lent, was) in enumerate(zip(slices, before), 1):
            free = 0 if result < 0 or lent not in written else result if lent is self.area else lent.length
            if free > lent.length or bytes(lent.memory)[free:] != was[free:]:
                raise Broken(f"{name} returned {result} and changed bytes of slice {number} that it must keep")
        return result

    def line(self, text):
        return self.call("timetable_line", (self.state, self.table, self.area), Slice(text))

    def load_xml(self, document):
        return self.call("timetable_load_xml", (self.state, self.table, self.area), Slice(document))

    def answer(self, result):
        """The bytes that the program would print."""
        return b"(refused %d)\n" % -result if result < 0 else bytes(self.area.memory)[:result]
