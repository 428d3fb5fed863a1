"""Prints what the Python binding names, and where what comes of a run, a claim, a chart and what is built of both has its
fields, as the other bindings' trials do."""
import ctypes

import rezkundo

print('library', rezkundo.Library().version())
for limit in ('VERSION', 'LONGEST_FILE', 'LEAST_OUTPUT', 'LEAST_WORK', 'MOST_STATES', 'LONGEST_CLAIM', 'MOST_MODES',
              'MOST_FLAGS', 'MOST_RULES', 'LONGEST_NAME', 'LEAST_CASE', 'LEAST_STEPS'):
    print(limit, getattr(rezkundo, limit))
for verdict in rezkundo.Verdict:
    print('verdict', verdict.value, verdict.name)
for refusal in rezkundo.Refusal:
    print('refusal', refusal.value, refusal.name)
for kind, structure in (('outcome', rezkundo._Outcome), ('claim', rezkundo._Claim), ('charted', rezkundo._Charted),
                        ('built', rezkundo._Built)):
    print(kind, 'of', ctypes.sizeof(structure), 'bytes')
    for name, _ in structure._fields_:
        field = getattr(structure, name)
        print(f'field {name} at {field.offset}, {field.size} bytes')
