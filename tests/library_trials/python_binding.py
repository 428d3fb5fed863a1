"""python_binding.py CASE ANSWER ACTS JOINING OTHER: tries the Python binding on a case, its answer and a list that ends
it, on a case by which an offer joins a waiting one, and on another library, whose runs give a verdict that nobody knows."""
import pathlib
import sys

import rezkundo
from rezkundo import ChartRefused, Claim, ClaimState, Finding, Library, Refusal, Refused, Tallies, Unknown, Verdict

case, answer, listed, joining = (pathlib.Path(name).read_bytes() for name in sys.argv[1:5])
acts = [int(line) for line in listed.split()]
library, other = Library(), Library(sys.argv[5])


def raised(error, call, *arguments):
    """The error that the call raises; any other ends the program."""
    try:
        result = call(*arguments)
    except error as caught:
        return caught
    raise AssertionError(f'{result} instead of {error.__name__}')


def refused(call, *arguments):
    """The refusal, the acts counted and the tallies."""
    error = raised(Refused, call, *arguments)
    return error.refusal, error.acts, error.tallies


none = Tallies(sent=0, delivered=0, joined=0)
lasso = Finding(Verdict.LASSO, 8, answer, Tallies(sent=4, delivered=4, joined=0))
assert library.run_rounds(case) == lasso
assert library.run_list(case, acts) == lasso
assert library.run_list(memoryview(case), iter(acts)) == lasso
assert library.check_answer(case, bytearray(answer)) is Verdict.LASSO
assert refused(library.run_list, case, acts[:1]) == (Refusal.UNENDED, 0, none)
assert refused(library.run_list, case, acts[1:4]) == (Refusal.UNENDED, 3, Tallies(sent=2, delivered=1, joined=0))
assert refused(library.run_list, joining, [0, 3, 1, 5, 0]) == (Refusal.UNENDED, 5, Tallies(sent=6, delivered=2, joined=1))
assert refused(library.run_list, case, []) == (Refusal.UNENDED, 0, none)
assert refused(library.run_list, case, [0, 5]) == (Refusal.NO_SUCH_ACT, 0, none)
assert refused(library.run_list, case, [2 ** 32 - 1]) == (Refusal.NO_SUCH_ACT, 0, none)
assert refused(library.run_rounds, b'') == (Refusal.NOT_A_CASE, 0, none)
assert refused(library.run_rounds, bytes(rezkundo.LONGEST_FILE + 1)) == (Refusal.TOO_LONG, 0, none)
assert refused(library.check_answer, case, b'') == (Refusal.ANSWER_LAYOUT, 0, none)
# A claim: a state with a name, one with an empty name, one without.
claim = (b'HOA: v1 States: 3 Start: 1 AP: 2 "p" "q" Acceptance: 1 Inf(0) --BODY-- State: 2 {0} [t] 2 [0 & !1] 0 '
         b'State: 0 "a \\"b" [f] 1 State: 1 "" [1] 0 [1] 2 --END--')
states = [ClaimState(False, b'a \\"b'), ClaimState(False, b''), ClaimState(True, None)]
assert library.read_claim(claim) == Claim(1, 2, states)
assert [library.claim_moves(claim, 2, values) for values in range(5)] == [[2], [0, 2], [2], [2], []]
assert library.claim_moves(claim, 1, 2) == [0, 2]
assert library.claim_moves(claim, 0, 0) == library.claim_moves(claim, 3, 0) == []
assert refused(library.read_claim, b'') == (Refusal.NOT_A_CLAIM, 0, none)
assert refused(library.read_claim, claim + b'0') == (Refusal.CLAIM, 0, none)
assert refused(library.read_claim, claim + b'/**/') == (Refusal.CLAIM_FEATURE, 0, none)
assert library.claim_moves(b'', 0, 0) == []
raised(OverflowError, library.claim_moves, claim, -1, 0)
raised(OverflowError, library.claim_moves, claim, 0, 2 ** 32)
raised(TypeError, library.read_claim, 'HOA: v1')
raised(Unknown, other.read_claim, claim)


def bad_pair(call, *arguments):
    """The refusal of a chart, and its first bad pair."""
    error = raised(ChartRefused, call, *arguments)
    return error.refusal, error.mode, error.combination


# A chart of two modes and two flags: right, with a gap, with an overlap, and torn.
front = b'version modes start flags\n1 2 1 2\nname\nHold\nclimb2\nmode care value next\n0 0 0 1\n1 1 1 0\n'
assert library.check_chart(front + b'1 1 0 1\n') is None
assert library.check_chart(memoryview(front + b'1 3 0 1\n1 3 2 0\n')) is None
assert bad_pair(library.check_chart, front + b'1 3 0 1\n') == (Refusal.CHART_GAP, 1, 2)
assert bad_pair(library.check_chart, front + b'1 0 0 1\n') == (Refusal.CHART_OVERLAP, 1, 1)
assert bad_pair(library.check_chart, front + b'1 1 0 1') == (Refusal.CHART, 0, 0)
assert refused(library.check_chart, b'') == (Refusal.CHART, 0, none)
raised(TypeError, library.check_chart, front.decode())
raised(Unknown, other.check_chart, front)
# The chart with a claim: their case, the steps of its answer, and one refusal of each kind.
chart = front + b'1 1 0 1\n'
promise = (b'HOA: v1 States: 1 Start: 0 AP: 2 "p" "q" Acceptance: 1 Inf(0) --BODY-- State: 0 "on \\"w\\"" {0} [!0] 0 '
           b'--END--')
product = (b'version vertices edges source workers\n1 2 2 1 2\nvertex accepting owner\n0 1 0\n1 1 1\nfrom to\n0 1\n'
           b'1 1\n')
turning = library.run_rounds(product).answer
assert library.build_case(chart, memoryview(promise), 2) == product
assert library.list_steps(chart, promise, bytearray(turning)) == b'climb2 on \\"w\\"\n'
never = promise.replace(b' {0}', b'')
assert library.list_steps(chart, never, library.run_rounds(library.build_case(chart, never, 1)).answer) == b''
assert refused(library.build_case, b'', b'', 17) == (Refusal.CASE_COUNT, 0, none)
assert refused(library.build_case, chart, b'', 1) == (Refusal.NOT_A_CLAIM, 0, none)
assert refused(library.build_case, chart, promise.replace(b'2 "p"', b'1'), 1) == (Refusal.COUNTS_DIFFER, 0, none)
assert refused(library.list_steps, chart, promise, turning + b'\n') == (Refusal.ANSWER_LAYOUT, 0, none)
assert refused(library.list_steps, chart, never, turning) == (Refusal.ANSWER_FALSE, 0, none)
assert bad_pair(library.build_case, front + b'1 3 0 1\n', b'', 1) == (Refusal.CHART_GAP, 1, 2)
assert bad_pair(library.list_steps, front + b'1 0 0 1\n', b'', b'') == (Refusal.CHART_OVERLAP, 1, 1)
raised(OverflowError, library.build_case, chart, promise, -1)
raised(OverflowError, library.build_case, chart, promise, 2 ** 32)
raised(TypeError, library.build_case, chart, promise.decode(), 1)
raised(TypeError, library.list_steps, chart, promise, 5)
raised(Unknown, other.build_case, chart, promise, 1)
raised(Unknown, other.list_steps, chart, promise, turning)
# Numbers that would be cut to other acts, and what has no bytes.
raised(OverflowError, library.run_list, case, [2 ** 32])
raised(OverflowError, library.run_list, case, [-1])
raised(TypeError, library.run_rounds, case.decode())
raised(TypeError, library.check_answer, case, 5)
# A verdict that nobody knows is no "empty".
raised(Unknown, other.run_rounds, case)
raised(Unknown, other.run_list, case, acts)
raised(Unknown, other.check_answer, case, answer)
