"""Run lists from job sheets: Corrumai's proved planner and judge, over ctypes.

    import corrumai
    bytes_of_list = corrumai.plan(bytes_of_sheet)         # raises corrumai.Refused for another answer
    answer = corrumai.judge(bytes_of_sheet, bytes_of_list)  # corrumai.Answer.PLAN: the list is a plan
    bytes_of_sheet = corrumai.to_edition2(bytes_of_sheet)   # and to_edition1 back
    answer, tick = corrumai.late(bytes_of_sheet, bytes_of_list, [3, 0])  # the first instance three minutes late
    run = corrumai.fresh(bytes_of_sheet)                    # a run, to be followed minute by minute
    corrumai.move_on(bytes_of_sheet, bytes_of_list, [3, 0], run)
    cents, sixtieths = corrumai.cost(bytes_of_sheet, bytes_of_list, [1200, 750])  # a rate in cents per hour for each job
    bytes_of_sheet = corrumai.newer(bytes_of_sheet, bytes_of_another)  # of two sheets the one that counts, by their revisions

The shared library libcorrumai.so is made by bin/install, or by hand of the archive:
cc -shared -o libcorrumai.so -Wl,--whole-archive libcorrumai.a -Wl,--no-whole-archive. It is looked for where the variable
CORRUMAI_LIBRARY says, then beside this file, then where the system looks.
"""

import ctypes
import enum
import os

__version__ = "0.9.0"
__all__ = ["Answer", "Refused", "Run", "cost", "fresh", "judge", "late", "length", "move_on", "newer", "plan", "to_edition1", "to_edition2"]

LONGEST_PLAN = 644
LONGEST_SHEET = 2528
MOST_DELAY = 600
MOST_RATE = 1000000


class Answer(enum.IntEnum):
    """The numbers of include/corrumai.h. NO_OWN_TIMES is given by nobody: such jobs are absent for the planner."""

    PLAN = 0
    DONE = 0
    NO_PLAN = 1
    BAD_CONTENTS = 10
    BAD_FACTS = 11
    BAD_JOBS = 12
    BAD_EVENTS = 13
    BAD_BOUNDS = 14
    NO_OWN_TIMES = 15
    TWO_SETTERS = 20
    NO_ORDER = 21
    NO_ORDER_UNWANTED = 22
    BUFFER_TOO_SHORT = 30
    BAD_LIST = 40
    NOT_A_PLAN = 41
    NO_WAY_BACK = 50
    BAD_RATES = 51
    OTHER_BYTES = 56


class Refused(Exception):
    """Another answer than a plan, a rewritten sheet, a cost or the sheet that counts: its number and its detail."""

    def __init__(self, answer, detail):
        super().__init__(f"ANSWER {int(answer)} {detail}")
        self.answer = answer
        self.detail = detail


class Run(ctypes.Structure):
    """The state of a run: next, the tick that the next move runs, and held, whose bit f is fact f. fresh() makes one."""

    _fields_ = [("next", ctypes.c_uint64), ("held", ctypes.c_uint64)]

    def facts(self):
        """The numbers of the facts held."""
        return [fact for fact in range(64) if self.held >> fact & 1]

    def __repr__(self):
        return f"Run(next={self.next}, held={self.held})"


def _load():
    beside = os.path.join(os.path.dirname(os.path.abspath(__file__)), "libcorrumai.so")
    path = os.environ.get("CORRUMAI_LIBRARY") or (beside if os.path.exists(beside) else "libcorrumai.so")
    library = ctypes.CDLL(path)
    text, size, number, pointer = ctypes.c_char_p, ctypes.c_size_t, ctypes.c_uint64, ctypes.POINTER
    listed = [text, size, text, size]
    delayed, rated = ([*listed, pointer(kind), size] for kind in (ctypes.c_uint16, ctypes.c_uint32))
    taken = {name: [*listed, pointer(size)] for name in ("plan", "judge", "to_edition2", "to_edition1")}
    taken.update({"late": [*delayed, pointer(size)], "fresh": [text, size, pointer(number)], "move_on": [*delayed, pointer(Run)]})
    taken["cost"] = [*rated, pointer(number), pointer(number)]
    taken["newer"] = [*listed, pointer(size), pointer(ctypes.c_uint8), pointer(size)]
    for name, types in taken.items():
        function = getattr(library, "corrumai_" + name)
        function.restype, function.argtypes = ctypes.c_uint8, types
    return library


_library = _load()


def _call(function, sheet, other, other_length, *last):
    sheet, detail = bytes(sheet), ctypes.c_size_t()
    number = function(sheet, len(sheet), other, other_length, ctypes.byref(detail), *map(ctypes.byref, last))
    return Answer(number), detail.value


def _write(function, sheet, longest):
    buffer = ctypes.create_string_buffer(longest)
    answer, detail = _call(function, sheet, buffer, longest)
    if answer is not Answer.DONE:
        raise Refused(answer, detail)
    return buffer.raw[:detail]


def plan(sheet):
    """The least list of a sheet, both in bytes; as if its retired jobs were not in it. Raises Refused."""
    return _write(_library.corrumai_plan, sheet, LONGEST_PLAN)


def to_edition2(sheet):
    """The sheet of edition 2 that says what this one of edition 1 says, with gap byte 1. Raises Refused."""
    return _write(_library.corrumai_to_edition2, sheet, LONGEST_SHEET)


def to_edition1(sheet):
    """The sheet of edition 1 that says what this one of edition 2 says. Raises Refused, also for gap byte 0: that is the
    default, 2 minutes, and edition 1 means 1."""
    return _write(_library.corrumai_to_edition1, sheet, LONGEST_SHEET)


def length(sheet):
    """The length that the sheet's list needs. Raises Refused."""
    answer, detail = _call(_library.corrumai_plan, sheet, None, 0)
    if answer is not Answer.BUFFER_TOO_SHORT:
        raise Refused(answer, detail)
    return detail


def judge(sheet, run_list):
    """The judge's answer on a list for a sheet: Answer.PLAN if it is a plan."""
    run_list = bytes(run_list)
    return _call(_library.corrumai_judge, sheet, run_list, len(run_list))[0]


def _numbers(kind, name, numbers):
    numbers, greatest = list(numbers), kind(-1).value
    if any(number < 0 for number in numbers):
        raise ValueError(f"a {name} is below 0")
    # What so many bytes cannot hold is above the most that is allowed, as their greatest number is.
    return (kind * len(numbers))(*(min(number, greatest) for number in numbers))


def _try(function, sheet, run_list, numbers, *last):
    sheet, run_list = bytes(sheet), bytes(run_list)
    return Answer(function(sheet, len(sheet), run_list, len(run_list), numbers, len(numbers), *map(ctypes.byref, last)))


def _delays(delays):
    return _numbers(ctypes.c_uint16, "delay", delays)


def late(sheet, run_list, delays):
    """Whether a list is still a plan with these delays, a number of ticks for each entry in its order: the answer, and with
    Answer.NOT_A_PLAN the first tick at which it goes wrong, or the horizon. The given list has to be a plan itself: with every
    other refusal the tick is 0."""
    detail = ctypes.c_size_t()
    answer = _try(_library.corrumai_late, sheet, run_list, _delays(delays), detail)
    return answer, detail.value


def fresh(sheet):
    """A run before tick 0, with the initial facts. Raises Refused."""
    sheet, held = bytes(sheet), ctypes.c_uint64()
    answer = Answer(_library.corrumai_fresh(sheet, len(sheet), ctypes.byref(held)))
    if answer is not Answer.DONE:
        raise Refused(answer, 0)
    return Run(0, held.value)


def move_on(sheet, run_list, delays, run):
    """Moves a run on by one tick of the delayed list, also where that is no plan; at the horizon it stays. Raises Refused, and the
    run is then as it was."""
    answer = _try(_library.corrumai_move_on, sheet, run_list, _delays(delays), run)
    if answer is not Answer.DONE:
        raise Refused(answer, 0)


def cost(sheet, run_list, rates):
    """What a list that the judge accepts costs: whole cents, and the sixtieths of a cent that are left, 0 to 59. The rates are in cents
    per hour, one for each job of the sheet, in sheet order. Raises Refused."""
    cents, sixtieths = ctypes.c_uint64(), ctypes.c_uint64()
    answer = _try(_library.corrumai_cost, sheet, run_list, _numbers(ctypes.c_uint32, "rate", rates), cents, sixtieths)
    if answer is not Answer.DONE:
        raise Refused(answer, 0)
    return cents.value, sixtieths.value


def newer(first, second):
    """Of two sheets of edition 2 the one with the higher revision, the first where both have the same bytes: the very object that was
    handed in. Raises Refused, also for the same revision with other bytes, and for a sheet of edition 1."""
    other, which, length = bytes(second), ctypes.c_uint8(), ctypes.c_size_t()
    answer, detail = _call(_library.corrumai_newer, first, other, len(other), which, length)
    if answer is not Answer.DONE:
        raise Refused(answer, detail)
    return second if which.value == 1 else first
