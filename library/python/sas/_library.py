"""The calls of libsas.so."""
from __future__ import annotations

import array
import ctypes
import mmap
import operator
import os
import sys
from typing import Any, Callable, Iterable, Optional, Tuple, Union

from ._answers import Answer, AnswerTooLong, InputTooLong, NoTask, State

Data = Union[bytes, bytearray, memoryview, mmap.mmap, "array.array[Any]"]

_YES, _NO, _ROOM_TOO_SHORT, _OUT_OF_MEMORY, _INPUT_TOO_LONG, _NO_TASK = range(6)
# the rooms that calls get first, in bytes: of a line, and of a longer answer
LINE_ROOM, USUAL_ROOM = 128, 65536


class Held(ctypes.Structure):
    """sas_task of sas.h."""

    _fields_ = [("is_there", ctypes.c_uint8), ("at", ctypes.c_void_p)]


class Run(ctypes.Structure):
    """sas_run of sas.h."""

    _fields_ = [
        ("operators", ctypes.c_void_p),
        ("count", ctypes.c_size_t),
        ("cost", ctypes.c_uint64),
        ("start", ctypes.c_void_p),
        ("start_length", ctypes.c_size_t),
    ]


def _load() -> ctypes.CDLL:
    """Returns the library: beside the package or in a folder above, in the source where it is built, or where the system finds it."""
    if "LIBSAS" in os.environ:
        return ctypes.CDLL(os.environ["LIBSAS"])
    here = os.path.dirname(os.path.abspath(__file__))
    for folder in (here, os.path.dirname(here), os.path.join(here, "../../out")):
        if os.path.exists(os.path.join(folder, "libsas.so")):
            return ctypes.CDLL(os.path.join(folder, "libsas.so"))
    return ctypes.CDLL("libsas.so.1")


def _call(name: str, *kinds: Any) -> Callable[..., int]:
    """Returns a call of the library, with inputs of these kinds, the room and the size."""
    size, call = ctypes.c_size_t, getattr(_LIBRARY, name)
    call.argtypes = [*kinds, ctypes.c_void_p, size, ctypes.POINTER(size)]
    call.restype = ctypes.c_uint32
    made: Callable[..., int] = call
    return made


_FILE = (ctypes.c_void_p, ctypes.c_size_t)
_HELD = (ctypes.POINTER(Held), *_FILE)
_RUN = (ctypes.POINTER(Held), ctypes.POINTER(Run))

try:
    _LIBRARY = _load()
    PLAN, PLAN_WHY, TRACE = (_call(name, *_FILE, *_FILE) for name in ("sas_plan", "sas_plan_why", "sas_trace"))
    CHECK, CHECK_WHY = (_call(name, *_FILE) for name in ("sas_check", "sas_check_why"))
    MUTEX, MUTEX_WHY = (_call(name, *_FILE) for name in ("sas_mutex", "sas_mutex_why"))
    SHOW, PRINT, STEPS = (_call(name, *_FILE) for name in ("sas_show", "sas_print", "sas_steps"))
    TASK_READ, TASK_PLAN = (_call(name, *_HELD) for name in ("sas_task_read", "sas_task_plan"))
    TASK_PLAN_WHY, TASK_TRACE = (_call(name, *_HELD) for name in ("sas_task_plan_why", "sas_task_trace"))
    TASK_PLAN_OPERATORS = _call("sas_task_plan_operators", *_HELD, ctypes.c_uint64)
    TASK_RUN = _call("sas_task_run", *_RUN)
    TASK_RUN_TRACE, TASK_RUN_STATE = (_call(name, *_RUN) for name in ("sas_task_run_trace", "sas_task_run_state"))
    VERSION, TASK_FREE = _LIBRARY.sas_version, _LIBRARY.sas_task_free
except (OSError, AttributeError) as _fault:
    raise ImportError(f"sas: the library isn't found: {_fault}") from _fault
VERSION.argtypes, VERSION.restype = [], ctypes.c_char_p
TASK_FREE.argtypes, TASK_FREE.restype = [ctypes.POINTER(Held)], None


def given(data: Data) -> Tuple[Any, int]:
    """Returns a file as a call takes it: a pointer to its bytes, and how many there are."""
    if isinstance(data, bytes):
        return data, len(data)
    if isinstance(data, (str, os.PathLike)):
        raise TypeError('give the bytes: open(path, "rb").read()')
    view = memoryview(data).cast("B")
    if view.readonly or not view:
        return bytes(view), len(view)
    return ctypes.byref(ctypes.c_char.from_buffer(view)), len(view)


def given_numbers(numbers: Iterable[int]) -> Tuple[Any, int]:
    """Returns numbers of operators as a call takes them: a pointer to them, and how many there are."""
    if isinstance(numbers, (str, bytes, bytearray)):
        raise TypeError("give the numbers of operators, not bytes or text")
    ready = numbers if _is_ready(numbers) else array.array("I", numbers)
    count = len(ready)  # type: ignore[arg-type]
    return ctypes.byref(ctypes.c_uint32.from_buffer(ready if count else array.array("I", [0]))), count  # type: ignore[arg-type]


def given_run(operators: Iterable[int], cost: int, start: Optional[Iterable[int]]) -> Tuple[Run, Any]:
    """Returns a run as a call takes it, and what has to be kept until the call returns."""
    (at, count), (start_at, start_length) = given_numbers(operators), given_numbers(() if start is None else start)
    run = Run(ctypes.cast(at, ctypes.c_void_p), count, given_cost(cost), ctypes.cast(start_at, ctypes.c_void_p), start_length)
    return run, (at, start_at)


def _is_ready(numbers: Any) -> bool:
    """Whether these are 32-bit numbers in a row, in memory that needs no copy."""
    try:
        view = memoryview(numbers)
    except TypeError:
        return False
    if view.ndim != 1 or view.format not in ("I", "=I", "<I") or not view.c_contiguous or view.readonly or not view:
        return False
    return ctypes.addressof(ctypes.c_uint32.from_buffer(view)) % ctypes.alignment(ctypes.c_uint32) == 0


def given_cost(cost: int) -> int:
    """Returns a cost as a call takes it, which has 64 bits."""
    if not 0 <= cost < 1 << 64:
        raise OverflowError("the cost of a plan has at most 64 bits, and no sign")
    return operator.index(cost)


def answer_of(call: Callable[..., int], *inputs: Any, room: int = LINE_ROOM, max_answer_bytes: Optional[int] = None) -> Answer:
    """Returns the answer of a call. It gets a room of so many bytes, and is repeated with a longer one if the answer is longer.

    Raises:
        AnswerTooLong: The answer has more than `max_answer_bytes` bytes.
    """
    most = sys.maxsize if max_answer_bytes is None else operator.index(max_answer_bytes)
    if most < 0:
        raise ValueError("max_answer_bytes is 0 or more")
    size, number = ctypes.c_size_t(min(room, most)), _ROOM_TOO_SHORT
    while number == _ROOM_TOO_SHORT:
        if size.value > most:
            raise AnswerTooLong(size.value)
        text = ctypes.create_string_buffer(size.value)
        number = call(*inputs, text, len(text), ctypes.byref(size))
    _check(number)
    return Answer(number == _YES, ctypes.string_at(text, size.value))


def state_of(call: Callable[..., int], *inputs: Any, variables: int) -> State:
    """Returns the state that a run leads to, of a task with so many variables."""
    size, number = ctypes.c_size_t(variables), _ROOM_TOO_SHORT
    while number == _ROOM_TOO_SHORT:
        values = array.array("I", bytes(4 * max(size.value, 1)))
        number = call(*inputs, values.buffer_info()[0], len(values), ctypes.byref(size))
    _check(number)
    return State(number == _YES, values[: size.value])


def _check(number: int) -> None:
    """Raises the exception of a number without an answer."""
    if number == _OUT_OF_MEMORY:
        raise MemoryError("sas: out of memory")
    if number == _INPUT_TOO_LONG:
        raise InputTooLong("sas: input too long")
    if number == _NO_TASK:
        raise NoTask("sas: no task is held")
