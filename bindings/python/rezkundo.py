"""Rezkundo's library as Python functions, over ctypes. include/rezkundo.h has the contract of each entry.

A run or a check gives a verdict or raises an error; a claim that is not taken and a chart that is not right raise one as
well, and so do a case that cannot be built and steps that cannot be listed. Numbers that this binding does not know raise
one too, so nothing is ever taken for "empty", or for right, that is not."""
import array
import ctypes
import enum
import os
from typing import NamedTuple

# The version that this binding goes with, as Library.version tells the library's: major x 10,000 + minor x 100 + patch.
VERSION = 10600
# The longest file in bytes; the least output in bytes and the least work buffer in cells, which suffice for every case.
LONGEST_FILE = 65536
LEAST_OUTPUT = 8192
LEAST_WORK = 16384
# The most states of a claim, and its longest text in bytes.
MOST_STATES = 15
LONGEST_CLAIM = 16384
# The most modes, flags and rules of a chart, and the longest name of a mode in bytes.
MOST_MODES = 32
MOST_FLAGS = 8
MOST_RULES = 512
LONGEST_NAME = 16
# The least output in bytes to build a case file, and to list steps; they suffice for every chart, claim and answer.
LEAST_CASE = 65536
LEAST_STEPS = 65536


class Verdict(enum.IntEnum):
    """What was found, or what an answer shows."""
    LASSO = 1
    EMPTY = 2


class Refusal(enum.IntEnum):
    """Why a call was refused; docs/REFUSALS.md has each number in words."""
    TOO_LONG = 1
    NOT_A_CASE = 2
    OTHER_VERSION = 3
    CASE_LAYOUT = 4
    CASE_COUNT = 5
    CASE_VERTEX = 6
    CASE_EDGE = 7
    CASE_EDGE_ORDER = 8
    NO_SUCH_ACT = 9
    UNENDED = 10
    BUFFER_TOO_SHORT = 11
    ANSWER_LAYOUT = 12
    ANSWER_FALSE = 13
    NOT_A_CLAIM = 14
    CLAIM = 15
    CLAIM_FEATURE = 16
    CHART = 17
    CHART_GAP = 18
    CHART_OVERLAP = 19
    COUNTS_DIFFER = 20
    TOO_MANY_EDGES = 21


class Tallies(NamedTuple):
    """The messages of a run. 'sent' is how often an offer was put into a message cell, also where one waited there already;
    'delivered' how often a delivery emptied a cell, also where the offer was not taken; 'joined' how often an offer was put
    into a cell where one waited. At any moment sent is delivered plus joined plus the cells still full."""
    sent: int
    delivered: int
    joined: int


class Refused(Exception):
    """The call was refused. 'acts' and 'tallies' are those of the run where the list ran out (UNENDED), else zeros."""

    def __init__(self, refusal, acts, tallies):
        super().__init__(f'refused {refusal.value}')
        self.refusal, self.acts, self.tallies = refusal, acts, tallies


class ChartRefused(Refused):
    """The chart was refused. With CHART_GAP and CHART_OVERLAP 'mode' and 'combination' are its first bad pair, else 0."""

    def __init__(self, refusal, mode, combination):
        super().__init__(refusal, 0, Tallies(0, 0, 0))
        self.mode, self.combination = mode, combination


class Unknown(Exception):
    """The library returned numbers that this binding does not know: it is not the one that the library goes with."""


class Finding(NamedTuple):
    """A run that ended: its verdict, the acts counted, the answer file, and its messages."""
    verdict: Verdict
    acts: int
    answer: bytes
    tallies: Tallies


class _Outcome(ctypes.Structure):
    _fields_ = [
        *((name, ctypes.c_uint32) for name in ('refusal', 'verdict')),
        ('acts', ctypes.c_uint64),
        *((name, ctypes.c_uint32) for name in ('written', 'sent', 'delivered', 'joined')),
    ]


class _Checked(ctypes.Structure):
    _fields_ = [(name, ctypes.c_uint32) for name in ('refusal', 'verdict')]


class ClaimState(NamedTuple):
    """A state of a claim: whether it is accepting, and its name as stored, None where it has none."""
    accepting: bool
    name: bytes | None


class Claim(NamedTuple):
    """A claim that is taken: its start, how many propositions it has, and its states by number."""
    start: int
    propositions: int
    states: list


class _Claim(ctypes.Structure):
    _fields_ = [
        *((name, ctypes.c_uint32) for name in ('refusal', 'states', 'start', 'propositions')),
        *((name, ctypes.c_uint32 * MOST_STATES) for name in ('accepting', 'name_at', 'name_length')),
    ]


class _Charted(ctypes.Structure):
    _fields_ = [(name, ctypes.c_uint32) for name in ('refusal', 'mode', 'combination')]


class _Built(ctypes.Structure):
    _fields_ = [(name, ctypes.c_uint32) for name in ('refusal', 'mode', 'combination', 'written')]


# What only a chart gets, and what a case to be built and steps to be listed get besides.
_OF_CHARTS = {Refusal.CHART, Refusal.CHART_GAP, Refusal.CHART_OVERLAP}
_OF_BOTH = {Refusal.BUFFER_TOO_SHORT, Refusal.NOT_A_CLAIM, Refusal.CLAIM, Refusal.CLAIM_FEATURE, Refusal.COUNTS_DIFFER,
            Refusal.TOO_MANY_EDGES}
_OF_CASES = _OF_BOTH | {Refusal.CASE_COUNT}
_OF_STEPS = _OF_BOTH | {Refusal.TOO_LONG, Refusal.OTHER_VERSION, Refusal.ANSWER_LAYOUT, Refusal.ANSWER_FALSE}


class Library:
    """librezkundo.so, loaded from a path, else from the one in REZKUNDO_SO, else by the system's search."""

    def __init__(self, path=None):
        self._library = ctypes.CDLL(path or os.environ.get('REZKUNDO_SO') or 'librezkundo.so')
        slices = [ctypes.c_void_p, ctypes.c_size_t]
        self._declare('rezkundo_version', ctypes.c_uint32, [])
        self._declare('rezkundo_run_list', _Outcome, slices * 4)
        self._declare('rezkundo_run_rounds', _Outcome, slices * 3)
        self._declare('rezkundo_check_answer', _Checked, slices * 2)
        self._declare('rezkundo_read_claim', _Claim, slices)
        self._declare('rezkundo_claim_moves', ctypes.c_uint32, slices + [ctypes.c_uint32] * 2)
        self._declare('rezkundo_check_chart', _Charted, slices)
        self._declare('rezkundo_build_case', _Built, slices * 2 + [ctypes.c_uint32] + slices)
        self._declare('rezkundo_list_steps', _Built, slices * 4)

    def _declare(self, name, result, parameters):
        entry = getattr(self._library, name)
        entry.restype, entry.argtypes = result, parameters

    def version(self):
        """The version of the loaded library."""
        return self._library.rezkundo_version()

    def run_list(self, text, acts):
        """Runs a case by a list of acts, each below 2 ** 32: its Finding."""
        # An array raises an error for a number that it cannot hold, where ctypes would cut it to another act.
        numbers = array.array('I', acts)
        address, length = numbers.buffer_info()
        return _run(self._library.rezkundo_run_list, text, address, length)

    def run_rounds(self, text):
        """Runs a case by rounds, to the run's end: its Finding."""
        return _run(self._library.rezkundo_run_rounds, text)

    def check_answer(self, text, answer):
        """Checks an answer to a case: the Verdict that it shows."""
        text, answer = _bytes(text), _bytes(answer)
        checked = self._library.rezkundo_check_answer(text, len(text), answer, len(answer))
        return _verdict(_Outcome(checked.refusal, checked.verdict))

    def read_claim(self, text):
        """Reads a claim: its Claim."""
        text = _bytes(text)
        read = self._library.rezkundo_read_claim(text, len(text))
        if read.refusal:
            _verdict(_Outcome(read.refusal))
        states = zip(read.accepting, read.name_at, read.name_length)
        return Claim(read.start, read.propositions, [_state(text, *state) for state in list(states)[:read.states]])

    def claim_moves(self, text, state, values):
        """The numbers of the states to which a state of a claim may move on flag values, where bit i is proposition i."""
        text = _bytes(text)
        # As for acts: a number that 32 bits do not hold is an error.
        moves = self._library.rezkundo_claim_moves(text, len(text), *array.array('I', (state, values)))
        return [d for d in range(MOST_STATES) if moves >> d & 1]

    def check_chart(self, chart):
        """Checks a chart of modes: returns if it is right, else raises ChartRefused."""
        chart = _bytes(chart)
        _right(self._library.rezkundo_check_chart(chart, len(chart)), set())

    def build_case(self, chart, claim, workers):
        """Builds the case file of a chart and a claim, for so many workers."""
        chart, claim = _bytes(chart), _bytes(claim)
        # As for acts: a number that 32 bits do not hold is an error.
        [workers] = array.array('I', [workers])
        lent = chart, len(chart), claim, len(claim), workers
        return _built(self._library.rezkundo_build_case, lent, LEAST_CASE, _OF_CASES)

    def list_steps(self, chart, claim, answer):
        """Lists the steps of an answer to the case of a chart and a claim, by names: a line for each edge of a lasso, and no
        byte for an "empty"."""
        chart, claim, answer = _bytes(chart), _bytes(claim), _bytes(answer)
        lent = chart, len(chart), claim, len(claim), answer, len(answer)
        return _built(self._library.rezkundo_list_steps, lent, LEAST_STEPS, _OF_STEPS)


def _state(text, accepting, at, length):
    # A name never stands at the text's front: before it is its quote.
    return ClaimState(bool(accepting), text[at:at + length] if at else None)


def _bytes(lent):
    """The bytes of what has some; a string or a number is an error."""
    return memoryview(lent).tobytes()


def _run(entry, text, *acts):
    text = _bytes(text)
    output = (ctypes.c_uint8 * LEAST_OUTPUT)()
    work = (ctypes.c_int32 * LEAST_WORK)()
    ran = entry(text, len(text), *acts, output, LEAST_OUTPUT, work, LEAST_WORK)
    verdict = _verdict(ran)
    return Finding(verdict, ran.acts, bytes(output[:ran.written]), _tallies(ran))


def _built(entry, lent, room, known):
    output = (ctypes.c_uint8 * room)()
    built = entry(*lent, output, room)
    if built.written > (0 if built.refusal else room):
        raise Unknown(_numbers(built))
    _right(built, known)
    return bytes(output[:built.written])


def _right(said, known):
    """Returns where nothing was refused, else raises the error that the numbers mean: of a chart, or one of those known. Only a
    gap and an overlap have a pair."""
    refusal, pair = said.refusal, (said.mode, said.combination)
    has_pair = refusal in (Refusal.CHART_GAP, Refusal.CHART_OVERLAP)
    if refusal not in {0} | _OF_CHARTS | known or (any(pair) and not has_pair):
        raise Unknown(_numbers(said))
    if refusal in _OF_CHARTS:
        raise ChartRefused(Refusal(refusal), *pair)
    if refusal:
        raise Refused(Refusal(refusal), 0, Tallies(0, 0, 0))


def _tallies(ran):
    return Tallies(ran.sent, ran.delivered, ran.joined)


def _verdict(ran):
    """The verdict, or the error that the numbers mean. A refusal has no verdict and no answer, and only UNENDED counts acts
    and messages; whatever differs from that is unknown."""
    if ran.refusal == 0 and ran.verdict in set(Verdict):
        return Verdict(ran.verdict)
    counts = ran.acts > 0 or any(_tallies(ran))
    known = ran.refusal == Refusal.UNENDED or (ran.refusal in set(Refusal) and not counts)
    if known and ran.verdict == 0 and ran.written == 0:
        raise Refused(Refusal(ran.refusal), ran.acts, _tallies(ran))
    raise Unknown(_numbers(ran))


def _numbers(said):
    return 'the library returned ' + ', '.join(f'{name} {getattr(said, name)}' for name, _ in said._fields_)
