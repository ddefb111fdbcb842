"""lineup for Python, over the shared library (`liblineup.so`, beside this file or where LINEUP_LIBRARY says).

    import lineup
    case = lineup.Case(component, matrix)      # two texts
    report = case.check(bound=60)
    for state in case.states(report.text):     # the failing schedule, move by move
        print(state.cells, state.events[-1:])
"""
import ctypes
import os
import pathlib
import re
import resource
import threading
from typing import Iterator, NamedTuple

_path = os.environ.get("LINEUP_LIBRARY") or pathlib.Path(__file__).with_name("liblineup.so")
_library = ctypes.CDLL(str(_path))
_size = ctypes.c_size_t
_text = [ctypes.c_char_p, _size]
_library.lineup_answer.argtypes = [*_text, *_text, _size, ctypes.c_void_p, _size, ctypes.POINTER(_size)]
_library.lineup_answer.restype = ctypes.c_uint8
_library.lineup_state.argtypes = [*_text, *_text, *_text, _size, ctypes.c_void_p, _size, ctypes.POINTER(_size)]
_library.lineup_state.restype = ctypes.c_uint8
_most_numbers = 6 + 8 * 12 + 16 * 64 + 8 + 32 * 4


class Refused(Exception):
    """A text was refused; the words are those of `lineup`."""


class Infeasible(Exception):
    """A move is not feasible where it stands; the argument is its number, from 0."""


class Answer(NamedTuple):
    """What the program answers: its text and its exit status."""
    text: str
    status: int


class Thread(NamedTuple):
    """Where a thread stands: how many picks its next move has, how many of its operations have ended, and of the open
    one its number (None: none is open), the place of its next instruction and its registers."""
    picks: int
    ended: int
    operation: int | None
    place: int
    registers: list[int]


class Event(NamedTuple):
    """A call, a return with its value, or a trap."""
    kind: str
    thread: int
    call: int
    value: int | None


class State(NamedTuple):
    """Where some moves lead."""
    status: str
    made: int
    moves: int
    threads: list[Thread]
    cells: list[int]
    owners: list[int | None]
    events: list[Event]


def _stack_of_thread() -> int:
    """How many bytes of stack a call may take: three quarters of what its thread has from its start."""
    limit = resource.getrlimit(resource.RLIMIT_STACK)[0]
    if threading.current_thread() is not threading.main_thread():
        limit = threading.stack_size() or limit
    return (2 << 20 if limit == resource.RLIM_INFINITY else limit) * 3 // 4


def answer(words: str, bundle: str, stack: int | None = None) -> Answer:
    """What `lineup WORDS` answers to a bundle; `refused stack`, with status 2, where the command may take more stack
    than there is (`stack` bytes, else three quarters of the thread's)."""
    said, given, room = words.encode(), bundle.encode(), 4096
    stack = _stack_of_thread() if stack is None else stack
    while True:
        text, length = ctypes.create_string_buffer(room), _size()
        status = _library.lineup_answer(said, len(said), given, len(given), stack, text, room, ctypes.byref(length))
        if length.value <= room:
            return Answer(text.raw[:length.value].decode(), status)
        room = length.value


def _state(numbers: list[int]) -> State:
    status, made, moves, threads, cells, locks = numbers[:6]
    rest = iter(numbers[6:])

    def take(count):
        return [next(rest) for _ in range(count)]

    stand = [take(12) for _ in range(threads)]
    values, owners, events = take(cells), take(locks), list(rest)
    return State(
        ("running", "complete", "stuck")[status], made, moves,
        [Thread(t[0], t[1], t[2] - 1 if t[2] else None, t[3], t[4:]) for t in stand],
        values, [owner - 1 if owner else None for owner in owners],
        [Event(("call", "return", "trap")[events[i]], events[i + 1], events[i + 2], events[i + 3] if events[i] == 1 else None)
         for i in range(0, len(events), 4)])


class Case:
    """A component and a matrix of it, as texts."""

    def __init__(self, component: str, matrix: str):
        self.component, self.matrix = component, matrix

    @classmethod
    def of_bundle(cls, bundle: str) -> "Case":
        """The first two parts of a bundle."""
        component, matrix = re.split(r"(?m)^---$\n?", bundle)[:2]
        return cls(component, matrix)

    def ask(self, words: str, *parts: str) -> Answer:
        """What `lineup WORDS` answers to this component and matrix and further parts."""
        answered = answer(words, "---\n".join([self.component, self.matrix, *parts]))
        if answered.status in (2, 4):
            raise Refused(answered.text.strip())
        return answered

    def check(self, bound: int = 40, serial: int = 40) -> Answer:
        return self.ask(f"check --bound {bound} --serial {serial}")

    def state(self, schedule: str, moves: int | None = None) -> State:
        """Where the first moves of a schedule lead, or of the schedule that a report shows."""
        numbers, count = (ctypes.c_uint32 * _most_numbers)(), _size()
        texts = [part for text in (self.component, self.matrix, schedule) for part in (text.encode(), len(text.encode()))]
        most = ctypes.c_size_t(-1).value if moves is None else moves
        status = _library.lineup_state(*texts, most, numbers, _most_numbers, ctypes.byref(count))
        if status == 1:
            raise Infeasible(numbers[0])
        if status:
            raise Refused(answer("replay", "---\n".join([self.component, self.matrix, schedule])).text.strip())
        return _state(numbers[:count.value])

    def states(self, schedule: str) -> Iterator[State]:
        """Each state along a schedule, the start first."""
        for made in range(self.state(schedule, 0).moves + 1):
            yield self.state(schedule, made)
