"""Makes each call of refused_memory.py, and lines inside lines as test_reenter.py. tests/clients/run runs it under valgrind."""

import gc

from refused_memory import CASES, opened
from test_reenter import SEED, World


def main() -> None:
    for case in CASES.values():
        for _ in range(2):
            case.call(case.before(opened()))
    gc.set_threshold(20, 3, 3)
    world = World(SEED)
    for _ in range(300):
        world.step()
    world.connection.close()
    print("made")


if __name__ == "__main__":
    main()
