"""Times one call, NOVAC on seven core sets, from Python by ctypes and by cffi, where that is there: medians of five turns."""

import statistics
import time

import agc

COUNT = 40_000


def timed(name, call, begin):
    times = []
    for _ in range(5):
        start = time.perf_counter()
        for i in range(COUNT):
            if i % 7 == 0:
                begin()
            call(1 + i % 31)
        times.append((time.perf_counter() - start) / COUNT * 1e9)
    print(f"{name}: {statistics.median(times):.0f} ns")


def main():
    made = agc.Machine(7)
    timed("Machine.ask", lambda priority: made.ask("novac", priority, 0o2000, 5), lambda: made.ask("fresh"))
    words = (agc.c_uint16 * agc.WORDS)()
    clear = lambda: agc.library.agc_clear(words, 7)
    timed("ctypes, agc_call", lambda priority: agc.library.agc_call(words, 7, agc.AgcRequest(1, priority, 0o2000, 5)), clear)
    try:
        from cffi import FFI
    except ImportError:
        print("no cffi")
        return
    ffi = FFI()
    ffi.cdef(
        "typedef struct { uint32_t code, reply, number; } AgcReply; uint32_t agc_clear(uint16_t *, uint32_t);"
        "typedef struct { uint32_t kind, first, second, third; } AgcRequest; AgcReply agc_call(uint16_t *, uint32_t, AgcRequest *);"
    )
    library, own = ffi.dlopen(agc.library._name), ffi.new("uint16_t[144]")
    clear = lambda: library.agc_clear(own, 7)
    timed("cffi, agc_call", lambda priority: library.agc_call(own, 7, ffi.new("AgcRequest *", (1, priority, 0o2000, 5))), clear)


main()
