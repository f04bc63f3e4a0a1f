"""Two saves in one second: written, checked, counted and read back from Python. Both are there. `make examples` runs it.

The argument is the shared library, which `make examples` makes of libmoortangle.a.
"""

import ctypes
import sys
from ctypes import POINTER, c_size_t, c_uint32, c_uint64, c_ubyte

DELTA, INSTANTS, MOST_VALUES = 2, 1, 4096


def answer(name, **fields):
    """A struct of moortangle.h: `answer` and `told`, then its own fields in the header's order."""
    return type(name, (ctypes.Structure,), {"_fields_": [("answer", c_uint32), ("told", c_uint64), *fields.items()]})


Written = answer("Written")
Record = answer("Record", end=c_uint32, code=c_uint32, kind=c_uint32, parameter=c_uint32, count=c_uint32)
Place = answer("Place", below=c_uint64)
Stream = answer("Stream", records=c_uint64, values=c_uint64)

library = ctypes.CDLL(sys.argv[1])


def entry(name, result, *arguments):
    """A function of the library that raises what it refuses."""
    function = library[name]
    function.restype, function.argtypes = result, arguments

    def call(*values):
        r = function(*values)
        if r.answer != 0:
            raise ValueError(f"{name} was refused: answer {r.answer}, told {r.told}")
        return r

    return call


BUFFER = (POINTER(c_ubyte), c_size_t)
LIST = (POINTER(c_uint32), c_size_t)
write = entry("moortangle_write", Written, *BUFFER, c_uint64, c_uint32, c_uint32, c_uint32, *LIST)
write_end = entry("moortangle_write_end", Written, *BUFFER, c_uint64)
check = entry("moortangle_check", Stream, *BUFFER)
search = entry("moortangle_search", Place, *BUFFER, c_uint64, c_uint64, c_uint32)
read = entry("moortangle_read", Record, *BUFFER, c_uint64, c_uint64, c_uint32, *LIST)

second = 1789430401
saves = (c_uint32 * 2)(second, second)
buffer = (c_ubyte * 64)()
record = write(buffer, len(buffer), 0, DELTA, 0, INSTANTS, saves, len(saves))
# The next record would start at record.told; here the stream ends.
end = write_end(buffer, len(buffer), record.told)

size = end.told // 8
stream = check(buffer, size)
print(f"{size} bytes, {stream.records} record, {stream.values} values")

# So many are below the next second, less those below this one.
below = [search(buffer, size, 0, end.told, instant).below for instant in (second, second + 1)]
print(f"{below[1] - below[0]} saves in second {second}")

values = (c_uint32 * MOST_VALUES)()
found = read(buffer, size, 0, end.told, INSTANTS, values, MOST_VALUES)
for i in range(found.count):
    print(f"save {i}: second {values[i]}")
