"""Loads a program, runs it a hundred times, and prints what it left in its map; then why another one is refused."""

from bpfspec import Machine, Refused, facts

PROGRAM = """
maps 1
ldmapval r2, 0, 0
atomic64 add [r2+0], r1
mov64 r0, r1
exit
"""

with Machine(PROGRAM) as machine:
    answers = [machine.run(number) for number in range(1, 101)]
    print(sum(answers), machine.get(0, 0))
    machine.set_words(0, [7])
    print(machine.run_each([1, 2, 3]), machine.words(0), machine.count(0), machine.loops())
REFUSED = "maps 1\nexit\n"
try:
    Machine(REFUSED)
except Refused as refused:
    print(refused)
    print(next(record["name"] for record in facts(REFUSED) if record["record"] == "refusal"))
