"""Interrupts at any moment, and threads."""
from __future__ import annotations

import random
import signal
import threading
import time
from collections.abc import Callable, Iterator
from concurrent.futures import ThreadPoolExecutor
from contextlib import contextmanager
from types import FrameType

import pytest

from voting_board import MAJORITIES, Refused, Register, indices, indices_of_members, replay, replay_text

CHAIRS = "".join(f"open,{chair}\n" for chair in range(1, 33))
LARGEST = [2**43 - at for at in range(32)]


class Interrupt(BaseException):
    """What the handler of a signal raises."""


@contextmanager
def interrupted(seconds: float, handler: Callable[[int, FrameType | None], object]) -> Iterator[None]:
    """A signal after some seconds, and its handler."""
    before = signal.signal(signal.SIGALRM, handler)
    signal.setitimer(signal.ITIMER_REAL, seconds)
    try:
        yield
    finally:
        signal.setitimer(signal.ITIMER_REAL, 0)
        signal.signal(signal.SIGALRM, before)


def stop(*_: object) -> None:
    raise Interrupt


def check(register: Register) -> None:
    """All that can be seen of a register is what its own commands make."""
    again = Register.from_script(register.script())
    assert (again.members, again.chairs, again.journal) == (register.members, register.chairs, register.journal)
    assert (again.published, again.read("half")) == (register.published, register.read("half"))
    rows = list(register.members.values())
    assert indices_of_members(rows, "half", open_chairs=register.chairs) == register.indices("half")


def do(register: Register, some: random.Random) -> None:
    """One call that changes a register."""
    kind = some.randrange(4)
    if kind == 0:
        register.set_votes("AAA", some.randrange(99))
    elif kind == 1:
        register.submit(f"votes,BBB,{some.randrange(99)}\npublish\nvotes,AAA,{some.randrange(99)}")
    elif kind == 2:
        register.publish()
    elif register.accepted > 8:
        register.undo(register.accepted - some.randrange(3))


def test_interrupts_of_a_register() -> None:
    # Catches: a register that an interrupt leaves between two states.
    some, hits = random.Random(1946), 0
    register = Register({"code": ["AAA", "BBB"], "votes": [1, 2], "chair": [1, 2]})
    for _ in range(3_000):
        try:
            with interrupted(some.uniform(1e-6, 2e-4), stop):
                for _ in range(1_000):
                    do(register, some)
            raise AssertionError("the interrupt was lost")
        except Interrupt:
            hits += 1
        assert repr(register).startswith("Register(members=2, chairs=2, ")
        if hits % 50 == 0:
            check(register)
            register.undo(4)
    assert hits == 3_000


@pytest.mark.parametrize("seconds", [0.05, 0.3, 0.7])
def test_interrupt_of_a_long_list(seconds: float) -> None:
    # Catches: a list of which a part is carried out.
    register = Register({"AAA": 1})
    with pytest.raises(Interrupt), interrupted(seconds, stop):
        register.submit("open,1\nclose,1\n" * 400_000)
    assert register.accepted == 0
    assert register.open(1) == 1


def test_interrupt_of_a_replay() -> None:
    # Catches: Ctrl-C that comes 23 seconds late.
    records = "".join(f"votes,AAA,{at}\npublish\nread,1,quorum\n" for at in range(20_000))
    run, seen = replay(f"member,votes\nAAA,1\nscript\n{CHAIRS}{records}"), 0
    with pytest.raises(Interrupt), interrupted(0.5, stop):
        for _ in run:
            seen += 1
    assert seen < 30_000


def test_a_handler_that_uses_the_register() -> None:
    # Catches: a deadlock, and a register that a handler changes in the middle of a call.
    register, seen = Register({"AAA": 1}), []

    def handler(*_: object) -> None:
        try:
            seen.append(register.set_votes("AAA", 5))
        except RuntimeError as why:
            seen.append(str(why))

    with interrupted(0.3, handler):
        register.submit("open,1\nclose,1\n" * 200_000)
    assert seen == ["another thread is using this register"] and register.accepted == 400_000


CALLS: list[Callable[[Register], object]] = [
    lambda it: it.open(2),
    lambda it: it.members,
    lambda it: it.indices("half"),
    lambda it: it.publish(),
    lambda it: it.undo(),
    lambda it: it.copy(),
    lambda it: it.script(),
    lambda it: it.submit("open,2"),
]


def is_refused(call: Callable[[Register], object]) -> bool:
    """Whether a call is refused while another thread has a long one; that one may end too early to tell."""
    register = Register({"AAA": 1})
    with ThreadPoolExecutor(1) as pool:
        running = pool.submit(register.submit, "open,1\nclose,1\n" * 200_000)
        while repr(register) != "Register(another thread is using this register)" and not running.done():
            pass
        try:
            call(register)
        except RuntimeError as why:
            assert str(why) == "another thread is using this register" and running.result() == 400_000
            return register.open(2) == 400_001
    return False


@pytest.mark.parametrize("call", CALLS)
def test_a_second_thread(call: Callable[[Register], object]) -> None:
    # Catches: two threads that tear a register.
    assert any(is_refused(call) for _ in range(20))


def test_many_threads_on_a_register() -> None:
    register, refused = Register({"AAA": 1, "BBB": 2}), []

    def work(seed: int) -> int:
        some, done = random.Random(seed), 0
        for _ in range(3_000):
            try:
                register.submit([f"votes,AAA,{some.randrange(99)}", f"votes,BBB,{some.randrange(99)}"])
                done += 2
            except RuntimeError as why:
                refused.append(str(why))
        return done

    with ThreadPoolExecutor(4) as pool:
        assert sum(pool.map(work, range(4))) == register.accepted
    assert set(refused) <= {"another thread is using this register"}
    check(register)


def test_registers_of_threads() -> None:
    def work(seed: int) -> Register:
        some, register = random.Random(seed), Register({"AAA": 1, "BBB": 2, "CCC": 3})
        for _ in range(2_000):
            try:
                kind = some.choice(["open", "close"])
                register.submit([f"{kind},{some.randint(1, 4)}", f"votes,AAA,{some.randrange(9)}"])
                register.move(some.choice(["AAA", "BBB", "CCC"]), some.choice([None, 1, 2, 3, 4]))
            except Refused:
                pass
        return register

    with ThreadPoolExecutor(4) as pool:
        for register in pool.map(work, range(4)):
            check(register)


def test_counts_of_threads() -> None:
    # Catches: counts of two threads in one room.
    boards = [[some.randint(0, 9) for _ in range(some.randint(1, 20))] for some in map(random.Random, range(300))]
    alone = [indices(it, majority) for it in boards for majority in MAJORITIES]
    with ThreadPoolExecutor(4) as pool:
        together = list(pool.map(lambda it: indices(*it), [(it, one) for it in boards for one in MAJORITIES]))
    assert together == alone


def test_others_run_during_counts() -> None:
    # Catches: a count that holds the interpreter's lock.
    register = Register.from_script(f"member,votes\nAAA,1\nscript\n{CHAIRS}publish\n")
    calls: list[Callable[[], object]] = [
        lambda: indices(LARGEST, "quorum"),
        lambda: register.indices("quorum"),
        lambda: register.read("quorum"),
        lambda: replay_text(f"member,votes\nAAA,1\nscript\n{CHAIRS}publish\n" + "read,1,quorum\n" * 9),
    ]
    for call in calls:
        ticks, ended = 0, threading.Event()

        def repeat() -> None:
            for _ in range(100):
                call()
            ended.set()

        thread = threading.Thread(target=repeat)
        thread.start()
        while not ended.is_set():
            ticks += 1
            time.sleep(0)
        thread.join()
        assert ticks > 500
