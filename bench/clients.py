"""Measures the processor time of a call from C, Rust and Python, and from Python's module sqlite3, for bench/all.

The calls are a look-up by key of a number and a text, and an INSERT of a row with two indexes inside one transaction. One run of the INSERT
passes all rows in one call, and another makes one call per row. Each time is the minimum of three runs.
"""

import os
import subprocess
import sys
from pathlib import Path

TOP = Path(__file__).resolve().parent.parent
CARGO = """[package]
name = "client"
version = "0.0.0"
edition = "2021"

[dependencies]
mmdb = {{ path = "{top}/clients/rust" }}

[[bin]]
name = "client"
path = "{top}/bench/embedded/client.rs"
"""


def build(prefix, folder):
    """Builds the clients with the library in PREFIX, and returns the environment for running them. bench/embedded.py builds the client in C."""
    environment = {
        **os.environ,
        "MMDB_LIB_DIR": f"{prefix}/lib",
        "LD_LIBRARY_PATH": f"{prefix}/lib",
        "PYTHONPATH": f"{folder}/package",
        "CARGO_TARGET_DIR": f"{folder}/target",
    }
    build_wheel = ["bash", TOP / "clients/python/build_wheel", prefix, folder]
    subprocess.run(build_wheel, check=True, stdout=subprocess.DEVNULL, env={**os.environ, "PYTHON": sys.executable})
    pip = [sys.executable, "-m", "pip", "install", "--quiet", "--no-index", "--no-deps", "--target", folder / "package"]
    subprocess.run([*pip, next(folder.glob("mmdb-*.whl"))], check=True)
    (folder / "Cargo.toml").write_text(CARGO.format(top=TOP))
    cargo = ["cargo", "build", "--quiet", "--offline", "--release", "--manifest-path", folder / "Cargo.toml"]
    subprocess.run(cargo, check=True, env=environment)
    return environment


def least(command, environment):
    """Returns the minimum of each number that three runs of a program print."""
    runs = [subprocess.run(command, capture_output=True, text=True, check=True, env=environment).stdout.split() for _ in range(3)]
    return [min(map(float, numbers)) for numbers in zip(*runs)]


def figures(prefix, folder, rows, calls):
    """Returns, for each client, the nanoseconds of a look-up, of a row of one INSERT for all rows, and of one INSERT per row."""
    environment = build(prefix, folder)
    size = [str(rows), str(calls)]
    look_up = least([folder / "mmdb", "0", *size], environment)[0]
    insert = least([folder / "mmdb", "4", *size, "transaction"], environment)[0]
    found = [{"from": "C", "look-up": look_up, "many": None, "one": insert}]
    python = [sys.executable, TOP / "bench/embedded/client.py"]
    for name, command in [
        ("Rust", [folder / "target/release/client"]),
        ("Python", [*python, "mmdb"]),
        ("Python, `sqlite3`", [*python, "sqlite3"]),
    ]:
        one_look_up, many, one = least([*command, *size], environment)
        found.append({"from": name, "look-up": one_look_up, "many": many, "one": one})
    return {"rows": rows, "clients": found}
