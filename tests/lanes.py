#!/usr/bin/env python3
"""Runs commands side by side, as many at a time as there are processors.

    tests/lanes.py < COMMANDS

Standard input has one command per line. The commands start in this order, so the longest should come first. When a command ends, a line says how
and after how long, and its whole output follows. The CPU time includes that of all processes that the command started. If a command fails, the
others run on. The last line is 'N passed, M failed'. The exit status is 0 if there were commands and all ended with status 0.

Control-C, SIGTERM and SIGHUP end all commands. The output of those that had not ended is printed too.
"""

import os
import shlex
import shutil
import signal
import subprocess
import sys
import tempfile
import time

SECONDS_TO_STOP = 10


class Lane:
    """A command that runs in a process group of its own, with its output in a file."""

    def __init__(self, command):
        self.command, self.start, self.output = command, time.monotonic(), tempfile.TemporaryFile()
        streams = {"stdin": subprocess.DEVNULL, "stdout": self.output, "stderr": subprocess.STDOUT}
        self.process = subprocess.Popen(shlex.split(command), start_new_session=True, **streams)
        print(f"-- {command}: started", flush=True)

    def signal(self, number):
        """Sends a signal to the command and to the processes that it started."""
        try:
            os.killpg(self.process.pid, number)
        except ProcessLookupError:
            pass

    def report(self, result, detail=""):
        print(f"== {self.command}: {result} after {time.monotonic() - self.start:.0f} s{detail}", flush=True)
        self.output.seek(0)
        shutil.copyfileobj(self.output, sys.stdout.buffer)
        sys.stdout.flush()


def result_of(code):
    if code < 0:
        return f"FAILED by signal {-code}"
    return f"FAILED with status {code}" if code else "passed"


def run_all(commands, running):
    """Runs the commands, and returns how many fail. `running` contains the lanes of those that have not ended, by process id."""
    waiting, failed, processors = list(reversed(commands)), 0, len(os.sched_getaffinity(0))
    while waiting or running:
        while waiting and len(running) < processors:
            lane = Lane(waiting.pop())
            running[lane.process.pid] = lane
        pid, status, used = os.wait4(-1, 0)
        lane = running.pop(pid)
        lane.process.returncode = code = os.waitstatus_to_exitcode(status)
        lane.report(result_of(code), f", with {used.ru_utime + used.ru_stime:.0f} s of CPU time")
        failed += code != 0
    return failed


def stop(lanes):
    """Ends the commands that still run, by SIGKILL if SIGTERM does not end them, and prints their output."""
    for lane in lanes:
        lane.signal(signal.SIGTERM)
    end = time.monotonic() + SECONDS_TO_STOP
    for lane in lanes:
        try:
            lane.process.wait(max(0, end - time.monotonic()))
        except subprocess.TimeoutExpired:
            pass
        lane.signal(signal.SIGKILL)
    for lane in lanes:
        lane.report("STOPPED")


def main():
    def end(number, _):
        sys.exit(f"{signal.Signals(number).name} has stopped the tests.")

    # A signal that has a handler here has its default action in the commands, even if this program was started with the signal ignored. The
    # tests of Control-C need that.
    for number in (signal.SIGINT, signal.SIGTERM, signal.SIGHUP):
        signal.signal(number, end)
    commands, running = sys.stdin.read().splitlines(), {}
    try:
        failed = run_all(commands, running)
    finally:
        stop(running.values())
    print(f"{len(commands) - failed} passed, {failed} failed")
    return 1 if failed or not commands else 0


if __name__ == "__main__":
    sys.exit(main())
