"""Random programs of calls on the client and on a model of it, compared after each step.

A program is drawn from a seed: random_steps.py says of what steps, random_runner.py runs them, and random_model.py says what must come of
them. All programs run in a process of their own, so that a crash or an endless call is a failure as any other. A program that fails is
made smaller, and shown with its seed.

    MMDB_SEED=SEED MMDB_STEPS=STEPS pytest tests/test_random.py

runs so many steps from this seed; without them these are 100,000 steps from the seed 1.
"""

import collections
import faulthandler
import gc
import os
import select
import signal
import time
import traceback
from collections.abc import Callable

import mmdb
import pytest
from random_runner import Failure, Runner
from random_steps import STEPS, Draw, Steps, reductions

SEED = os.environ.get("MMDB_SEED", "1")
MOST_STEPS = int(os.environ.get("MMDB_STEPS", "100000"))
STEPS_OF_A_PROGRAM = 60
SECONDS_OF_A_PROGRAM, SECONDS_TO_SHRINK = 20, 60


def in_child(work: Callable[[Callable[[str], None]], None], seconds: float) -> tuple[str, str]:
    """Does work in a process of its own. Returns how that failed, or nothing, and what it wrote. The seconds begin anew with each text."""
    read, write = os.pipe()
    child = os.fork()
    if child == 0:
        status = 1
        try:
            faulthandler.enable(write)
            # Else each collection looks at all that was imported.
            gc.freeze()
            work(lambda text: os.write(write, text.encode(errors="backslashreplace")) and None)
            status = 0
        except Failure as failure:
            os.write(write, f"{failure}\n".encode(errors="backslashreplace"))
        except BaseException:
            os.write(write, traceback.format_exc().encode(errors="backslashreplace"))
        finally:
            os._exit(status)
    os.close(write)
    told = b""
    while select.select([read], [], [], seconds)[0]:
        more = os.read(read, 65536)
        if not more:
            break
        told += more
    else:
        os.kill(child, signal.SIGKILL)
    os.close(read)
    status = os.waitstatus_to_exitcode(os.waitpid(child, 0)[1])
    failed = {0: "", 1: "it failed", -signal.SIGKILL: f"it did not end in {seconds} seconds"}
    return failed.get(status, f"it ended with the status {status}"), told.decode(errors="backslashreplace")


def run(program: Steps, counts: collections.Counter | None = None) -> int:
    """Runs a program, and returns the number of its steps. At its end no object of the client is left."""
    gc.disable()
    runner = Runner(counts)
    runner.run(program)
    runner.ends()
    count = runner.count
    del runner
    # What a finalizer of the first collection made goes in the second.
    gc.collect()
    gc.collect()
    if left := [one for one in gc.get_objects() if isinstance(one, (mmdb.Connection, mmdb.Cursor))]:
        raise Failure(f"{left} are left")
    return count


def failure_of(program: Steps) -> tuple[str, str]:
    """How a program fails by itself, or nothing, and what it tells."""
    return in_child(lambda _: run(program) and None, SECONDS_OF_A_PROGRAM)


def shrunk(program: Steps, seconds: float) -> tuple[Steps, str]:
    """A smaller program that fails in the same way, and what that tells."""
    end = time.monotonic() + seconds
    failed, told = failure_of(program)
    if not failed:
        return program, "It failed after other programs, and not by itself."
    smaller: Steps | None = program
    while smaller is not None:
        smaller = None
        for candidate in reductions(program):
            if time.monotonic() > end:
                break
            failed_too, told_too = failure_of(candidate)
            if failed_too == failed:
                program = smaller = candidate
                told = told_too
                break
    return program, f"{failed}\n{told}"


def run_programs(tell: Callable[[str], None]) -> None:
    """Runs programs up to the number of steps. Tells of each before it runs, and at the end how often each step ran and was refused."""
    counts: collections.Counter = collections.Counter()
    done = number = 0
    while done < MOST_STEPS:
        tell(f"program {number} after {done} steps\n")
        done += run(Draw(f"{SEED}.{number}").program(STEPS_OF_A_PROGRAM), counts)
        number += 1
    tell("".join(f"{count} {name}\n" for name, count in sorted(counts.items())))


def test_random_programs() -> None:
    failed, told = in_child(run_programs, SECONDS_OF_A_PROGRAM)
    if failed:
        number = told.rsplit("program ", 1)[1].split(" ")[0]
        program, how = shrunk(Draw(f"{SEED}.{number}").program(STEPS_OF_A_PROGRAM), SECONDS_TO_SHRINK)
        shown = "\n".join(f"    {step!r}" for step in program)
        left = f"The program that is left:\n{shown}\n{how}"
        pytest.fail(f"MMDB_SEED={SEED}, program {number}: {failed}\n{told[-3000:]}\n{left}", pytrace=False)
    counted = [line.partition(" ") for line in told.splitlines() if line[0].isdigit()]
    counts = {name: int(count) for count, _, name in counted}
    print(told[told.rindex("program ") :])
    # Each kind of step ran, a twentieth as often as it is drawn at least.
    seldom = [name for name, weight in STEPS.items() if counts.get(name, 0) < int(MOST_STEPS * weight / 2000)]
    assert not seldom, f"{seldom} were too seldom among {counts}"
