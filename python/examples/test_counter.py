"""A counter behind an elided lock, tested with pytest.

    pip install ./python pytest
    pytest python/examples

Two cores add 1 to a counter. Each tries without the lock: in a transaction it reads the lock, and
where the lock is free it adds 1 and commits. Where that fails it takes the lock.
"""

import pytest

import elide

SOURCE = """\
start:  xbegin .fall
        cmp dword [mutex], 0    ; the lock joins the read set
        jne .busy
        inc dword [count]
        xend
        hlt
.busy:  xabort 0xff
.fall:  mov eax, 1
        xchg eax, [mutex]       ; the lock itself
        test eax, eax
        jnz .fall
        inc dword [count]
        mov dword [mutex], 0
        hlt

section .data
mutex:  dd 0
        align 64                ; another line than the lock's
count:  dd 0
"""

# The same, whose transaction does not look at the lock.
FAULTY = SOURCE.replace("cmp dword [mutex], 0 ", "xor eax, eax ")


@pytest.fixture
def program():
    with elide.Program.from_source(SOURCE, name="counter.asm") as program:
        yield program


def test_no_run_of_a_thousand_loses_an_increment(program):
    failure = elide.hunt(program, cores=2, check="count == 2", events="draw", runs=1000)
    assert failure is None, failure.replay


def test_no_schedule_loses_an_increment(program):
    found = elide.outcomes(program, "count mutex", cores=2, memory=12288, reads=4, writes=4)
    assert found.whole
    assert found.values == {(2, 0)}


def test_a_core_that_takes_the_lock_aborts_the_other(program):
    with program.machine(cores=2, entry=["start", "start.fall"]) as machine:
        machine.step(0)
        machine.step(0)
        assert machine.regs(0).state == "tx"
        machine.step(1)
        machine.step(1)
        assert machine.why(0).cause == "conflict"
        assert machine.step(0).status == 6
        assert machine.run(1000).end == "all stopped"
        assert machine.value("count") == 2


def test_a_hunt_finds_what_is_wrong():
    with elide.Program.from_source(FAULTY, name="faulty.asm") as faulty:
        failure = elide.hunt(faulty, cores=2, check="count == 2", events="draw")
        assert failure is not None
        # Its schedule shows the fault each time, and step by step.
        with faulty.machine(cores=2, steps=failure.schedule) as machine:
            machine.run(len(failure.schedule))
            assert machine.value("count") == 1
