"""states.py LIBRARY: answers `[component, matrix, schedule, moves]` on each line of its input by `[status, [number, ..]]`, which is
what `lineup_state` of liblineup.so reports."""
import ctypes
import json
import sys

MOST_NUMBERS = 6 + 8 * 12 + 16 * 64 + 8 + 32 * 4
lineup_state = ctypes.CDLL(sys.argv[1]).lineup_state
lineup_state.restype = ctypes.c_uint8
for line in sys.stdin:
    *texts, moves = json.loads(line)
    numbers, count = (ctypes.c_uint32 * MOST_NUMBERS)(), ctypes.c_size_t()
    given = [it for text in texts for it in (text.encode(), ctypes.c_size_t(len(text.encode())))]
    status = lineup_state(*given, ctypes.c_size_t(moves), numbers, ctypes.c_size_t(MOST_NUMBERS), ctypes.byref(count))
    print(json.dumps([status, numbers[:count.value]]))
