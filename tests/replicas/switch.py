"""Passes packets between the hosts of a test, like a network that can be cut, slow, lossy or out of order.

    switch.py NUMBER:DESCRIPTOR ..

Each host has a TUN device in a network namespace of its own. DESCRIPTOR is the open file of the device of the host with the address
10.99.0.NUMBER. The switch reads commands from standard input, as lines of JSON, and ends at the end of its input:

    {"seed": 7}                                        seeds the generator of loss, jitter and repetition
    {"links": [[1, 2]], "cut": true}                   cuts the link from 1 to 2, but not from 2 to 1
    {"links": [[1, 2]], "delay": 0.05, "jitter": 0.1,  delays packets by 50 to 150 ms, so that they overtake each other;
     "loss": 0.1, "twice": 0.05}                       loses one packet in ten, and repeats one in twenty
    {"links": [[1, 2]]}                                restores the link

A switch in user space needs no netem in the kernel, and cuts one direction of a link as easily as both.
"""

import heapq
import json
import os
import random
import select
import sys
import time
from typing import NamedTuple

LONGEST_PACKET = 65535
PACKETS_A_TURN = 64
MOST_DELAYED = 20000
DESTINATION = slice(16, 20)  # in the IPv4 header


class Link(NamedTuple):
    """The settings of a link from one host to another: times in seconds, and probabilities."""

    cut: bool = False
    delay: float = 0.0
    jitter: float = 0.0
    loss: float = 0.0
    twice: float = 0.0


WHOLE = Link()


class Switch:
    def __init__(self, devices: dict[int, int]):
        self.devices = devices
        self.numbers = {descriptor: number for number, descriptor in devices.items()}
        self.links: dict[tuple[int, int], Link] = {}
        self.delayed: list[tuple[float, int, int, bytes]] = []  # delivery time, a count that keeps the order, target, packet
        self.count = 0
        self.random = random.Random(0)
        self.input = b""
        self.poll = select.epoll()
        for descriptor in [0, *devices.values()]:
            os.set_blocking(descriptor, False)
            self.poll.register(descriptor, select.EPOLLIN)

    def command(self, line: bytes) -> None:
        said = json.loads(line)
        if "seed" in said:
            self.random.seed(said.pop("seed"))
        for source, target in said.pop("links", []):
            self.links[source, target] = Link(**said)

    def commands(self) -> bool:
        """Executes the commands that have arrived. Returns False at the end of the input."""
        got = os.read(0, 65536)
        *lines, self.input = (self.input + got).split(b"\n")
        for line in lines:
            self.command(line)
        return bool(got)

    def pass_on(self, target: int, packet: bytes) -> None:
        try:
            os.write(self.devices[target], packet)
        except OSError:
            pass  # a full device drops packets, as hardware does

    def take(self, source: int, packet: bytes) -> None:
        target = packet[DESTINATION.stop - 1] if len(packet) >= DESTINATION.stop else 0
        if target not in self.devices or packet[0] >> 4 != 4:
            return
        link = self.links.get((source, target), WHOLE)
        if link is WHOLE:
            self.pass_on(target, packet)
        elif not link.cut and self.random.random() >= link.loss:
            for _ in range(2 if self.random.random() < link.twice else 1):
                self.delay(link.delay + self.random.random() * link.jitter, target, packet)

    def delay(self, seconds: float, target: int, packet: bytes) -> None:
        if len(self.delayed) < MOST_DELAYED:
            self.count += 1
            heapq.heappush(self.delayed, (time.monotonic() + seconds, self.count, target, packet))

    def take_all(self, descriptor: int) -> None:
        source = self.numbers[descriptor]
        for _ in range(PACKETS_A_TURN):
            try:
                packet = os.read(descriptor, LONGEST_PACKET)
            except OSError:
                return
            self.take(source, packet)

    def run(self) -> None:
        while True:
            wait = max(0.0, self.delayed[0][0] - time.monotonic()) if self.delayed else -1
            for descriptor, _ in self.poll.poll(wait):
                if descriptor:
                    self.take_all(descriptor)
                elif not self.commands():
                    return
            while self.delayed and self.delayed[0][0] <= time.monotonic():
                _, _, target, packet = heapq.heappop(self.delayed)
                self.pass_on(target, packet)


if __name__ == "__main__":
    Switch({int(number): int(descriptor) for number, descriptor in (word.split(":") for word in sys.argv[1:])}).run()
