"""The decisions of a seed: the faults with their times, the options of the replicas, and the calls of each client.

A seed always produces the same schedule. Names such as "leader" are resolved during the run, since the servers elect their leader.
"""

import random
from dataclasses import dataclass, field

SERVERS = ["s0", "s1", "s2"]
REPLICAS = ["r0", "r1", "r2"]
CLIENTS = ["c0", "c1"]
WITNESS = "w0"
HOSTS = [*SERVERS, *REPLICAS, *CLIENTS, WITNESS]

# Faults of hosts and links that spare the leader and a majority of the servers, and faults that do not.
LIGHT = ["cut", "cut-one-way", "slow", "lossy", "stop", "kill", "end", "clock", "memory", "no-room-for-snapshots", "bad-snapshot", "junk"]
HEAVY = ["cut", "cut-one-way", "slow", "stop", "kill", "kill-all-replicas", "lose-files", "full", "split", "kill-most", "stop-most"]
OF_SERVERS = ["kill", "stop", "cut", "cut-one-way", "lose-files", "full", "kill-most", "stop-most", "split"]
HEAVY_OF = 3  # one in HEAVY_OF seeds has heavy faults

# The builds of the programs. Forgetful replicas keep 64 ids instead of 65,536, so that they forget some ids during a run.
BUILD_OF = ["plain", "forgetful", "plain", "forgetful", "address", "forgetful", "plain", "forgetful", "thread"]
SANITIZED, FEW_IDS = ("address", "thread"), 64


@dataclass
class Fault:
    """A fault, with its begin and its duration in seconds of the run."""

    at: float
    lasts: float
    kind: str
    host: str
    other: str = ""  # the other end of a link; empty for the links to all hosts
    value: float = 0.0

    def __str__(self) -> str:
        link = f" and {self.other}" if self.other else ""
        return f"{self.at:.2f} s: {self.kind} {self.host}{link} for {self.lasts:.2f} s ({self.value:.3f})"


@dataclass
class Schedule:
    """All decisions of a seed except the calls of the clients."""

    seed: int
    length: float
    is_heavy: bool
    faults: list[Fault]
    replicas: dict[str, list[str]] = field(default_factory=dict)  # the options of each replica
    build: str = "plain"

    def describe(self) -> str:
        kind = "heavy" if self.is_heavy else "light"
        lines = [f"seed {self.seed}: {self.length:.2f} s, {kind}, {self.build}"]
        lines += [f"  {name} {' '.join(options)}" for name, options in self.replicas.items()]
        return "\n".join([*lines, *(f"  {fault}" for fault in self.faults)])


def draw_light(rng: random.Random, length: float) -> Fault:
    kind = rng.choice(LIGHT)
    lasts = rng.uniform(0.2, length * 0.6)
    host = rng.choice(REPLICAS)
    other = ""
    if kind in ("cut", "cut-one-way", "slow", "lossy"):
        host = rng.choice([*REPLICAS, *CLIENTS, "follower"])
        other = rng.choice(["", *SERVERS]) if host != "follower" else rng.choice(["", *REPLICAS])
    if kind in ("kill", "stop") and rng.random() < 0.3:
        host = "follower"
    return Fault(rng.uniform(0.2, length * 0.7), lasts, kind, host, other, value_of(rng, kind))


def draw_heavy(rng: random.Random, length: float) -> Fault:
    kind = rng.choice(HEAVY)
    host = rng.choice(["leader", "leader", "follower", *REPLICAS])
    if kind in ("lose-files", "full"):
        host = rng.choice(["leader", "follower"])
    lasts = rng.uniform(1.0, length * 0.6)
    return Fault(rng.uniform(0.3, length * 0.5), lasts, kind, host, "", value_of(rng, kind))


def value_of(rng: random.Random, kind: str) -> float:
    """Returns the parameter of a fault: a delay in seconds, a loss rate, a jump of the clock in seconds, or a random choice such as the
    byte to change."""
    if kind == "slow":
        return rng.choice([0.005, 0.03, 0.1, 0.3])
    if kind == "lossy":
        return rng.choice([0.02, 0.1, 0.3])
    if kind == "clock":
        return rng.choice([-86400.0, -3600.0, -5.0, 5.0, 3600.0, 86400.0 * 400])
    return rng.random()


def options_of(rng: random.Random, place: int) -> list[str]:
    """Returns the options of a replica. All replicas must agree on --sum-every, and the first always writes snapshots."""
    options = ["--sum-every", "40", "--lost-after", str(rng.choice([1500, 3000, 15000]))]
    if place == 0 or rng.random() < 0.3:
        options += ["--snapshot-every", str(rng.choice([20, 60, 150]))]
        if rng.random() < 0.4:
            options += ["--keep", str(rng.choice([100, 300]))]
    return options


def schedule_of(seed: int) -> Schedule:
    rng = random.Random(seed)
    is_heavy = seed % HEAVY_OF == 0
    length = rng.uniform(6.0, 10.0) if is_heavy else rng.uniform(1.5, 3.5)
    faults = [draw_heavy(rng, length) for _ in range(rng.randint(1, 2))] if is_heavy else []
    faults += [draw_light(rng, length) for _ in range(rng.randint(1, 4))]
    schedule = Schedule(seed, length, is_heavy, sorted(faults, key=lambda fault: fault.at))
    schedule.build = BUILD_OF[seed // HEAVY_OF % len(BUILD_OF)]
    schedule.replicas = {name: options_of(rng, place) for place, name in enumerate(REPLICAS)}
    return schedule


# Calls.

ACCOUNTS, MONEY, COUNTERS = 12, 100, 4
DEFINITIONS = [
    "TABLE account (id INT KEY, money INT)\n",
    "TABLE entry (id TEXT KEY, payer INT REF account, payee INT REF account, amount INT)\n",
    "TABLE counter (id INT KEY, value INT)\n",
    "INDEX by_payer ON entry (payer) TREE\n",
    "WATCH rich SELECT a.id, a.money FROM account a WHERE a.money > 100\n",
    "INSERT account " + ", ".join(f"({number}, {MONEY})" for number in range(1, ACCOUNTS + 1)) + "\n",
    "INSERT counter " + ", ".join(f"({number}, 0)" for number in range(1, COUNTERS + 1)) + "\n",
]
QUESTIONS_AT_END = ["TABLES", "SCAN account", "SCAN entry", "SCAN counter", "SCAN INDEX by_payer", "SHOW rich"]
NOT_VALID = ["INSERT account (1\n", "SCAN account\n", "BEGIN\nDELETE entry\n", "COMMIT\n"]
NO_SCRIPTS = [
    b"BEGIN\nINSERT account (900, 1)\n",
    b"INSERT account (901, 1)\nINSERT account (902, 1)\n",
    b"BEGIN\nINSERT account (903, 1)\nBEGIN\nCOMMIT\n",
    b"INSERT account (905, ?)\n",
    b"SCAN account\n",
    b"\x00\xff\n",
    b"",
]


@dataclass
class Call:
    """The next call of a client: a change or a question, its timeout and the pause before it, both in seconds."""

    script: str = ""
    is_valid: bool = True
    has_condition: bool = False  # whether the script fails if one of its UPDATE or DELETE commands matches no row
    question: str = ""
    linearizable: bool = False
    passed_on: bool = False  # whether the question demands the highest number of all clients
    wait: float = 1.0
    pause: float = 0.0


class Calls:
    """Generates the calls of one client."""

    def __init__(self, seed: int, client: str):
        self.rng = random.Random(f"{seed} {client}")
        self.client = client
        self.count = 0

    def next(self) -> Call:
        rng = self.rng
        call = Call(wait=rng.choice([0.3, 0.6, 1.2, 2.5]), pause=rng.choice([0.0, 0.0, 0.002, 0.02]))
        if rng.random() < 0.45:
            call.is_valid = rng.random() >= 0.03
            call.script = self.script() if call.is_valid else rng.choice(NOT_VALID)
            call.has_condition = rng.random() < 0.1
        else:
            call.question = self.question()
            call.passed_on = rng.random() < 0.5
            call.linearizable = rng.random() < 0.2
        return call

    def script(self) -> str:
        rng = self.rng
        self.count += 1
        kind = rng.random()
        if kind < 0.35:
            return f"UPDATE counter SET value = value + 1 WHERE id = {rng.randint(1, COUNTERS)}\n"
        if kind < 0.40:
            return "DELETE entry WHERE amount = 9\n"
        return self.transfer()

    def transfer(self) -> str:
        rng = self.rng
        payer, payee = rng.sample(range(1, ACCOUNTS + 1), 2)
        amount = rng.randint(1, 9)
        name = f"{self.client}-{self.count if rng.random() < 0.9 else rng.randint(1, self.count)}"
        lines = ["BEGIN"]
        lines.append(f"UPDATE account SET money = money - {amount} WHERE id = {payer}")
        lines.append(f"UPDATE counter SET value = value + 1 WHERE id = {rng.randint(1, COUNTERS)}")
        if rng.random() < 0.2:
            lines += ["SAVEPOINT s", "DELETE entry WHERE payer = 1", "ROLLBACK TO s"]
        lines.append(f"UPDATE account SET money = money + {amount} WHERE id = {payee}")
        lines.append(f"INSERT entry ('{name}', {payer}, {payee}, {amount})")
        lines.append("ROLLBACK" if rng.random() < 0.05 else "COMMIT")
        return "\n".join(lines) + "\n"

    def question(self) -> str:
        rng = self.rng
        return rng.choice(
            [
                "SCAN account",
                "SCAN counter",
                "SHOW rich",
                f"SELECT e.id, e.amount FROM entry e WHERE e.payer = {rng.randint(1, ACCOUNTS)}",
                f"SELECT c.value FROM counter c WHERE c.id = {rng.randint(1, COUNTERS)}",
                "SCAN nothing",
            ]
        )
