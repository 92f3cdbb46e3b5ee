"""The shell away from a terminal: it answers scripts as the program mmdb does, byte for byte."""

import glob
import io
import os
import subprocess
import sys

import pytest

import mmdb._library
from mmdb._library import Database, Refused
from mmdb.shell_script import InputTooLong, lines_of, reply_to, run_script

TOP = os.path.dirname(os.path.dirname(os.path.dirname(os.path.dirname(os.path.abspath(__file__)))))
ROWS = sorted(glob.glob(os.path.join(TOP, "tests", "rows", "**", "*.in"), recursive=True))
EXAMPLES = sorted(glob.glob(os.path.join(TOP, "examples", "*.mmdb")))
PACKAGE = os.path.dirname(os.path.dirname(os.path.abspath(mmdb._library.__file__)))
ENVIRONMENT = dict(os.environ, PYTHONPATH=os.pathsep.join([PACKAGE, *filter(None, [os.environ.get("PYTHONPATH")])]))
SHELL = [sys.executable, "-m", "mmdb"]


def name_of(path: str) -> str:
    return os.path.relpath(path, TOP)


def read(path: str) -> bytes:
    with open(path, "rb") as file:
        return file.read()


def answers(script: bytes) -> bytes:
    out = io.BytesIO()
    database = Database()
    run_script(database, io.BytesIO(script), out)
    database.close()
    return out.getvalue()


def run(*paths: str, script: bytes = b"") -> "subprocess.CompletedProcess[bytes]":
    return subprocess.run([*SHELL, *paths], input=script, env=ENVIRONMENT, capture_output=True, timeout=60)


def test_there_are_scripts() -> None:
    assert len(ROWS) > 90 and len(EXAMPLES) > 9


@pytest.mark.parametrize("path", ROWS + EXAMPLES, ids=name_of)
def test_scripts(path: str) -> None:
    assert answers(read(path)) == read(os.path.splitext(path)[0] + ".out")


@pytest.mark.parametrize("path", EXAMPLES, ids=name_of)
def test_examples_from_standard_input(path: str) -> None:
    done = run(script=read(path))
    assert (done.returncode, done.stdout, done.stderr) == (0, read(os.path.splitext(path)[0] + ".out"), b"")


def test_files_run_on_one_database(tmp_path: "os.PathLike[str]") -> None:
    scripts = [b"TABLE t (id INT KEY)\r\nINSERT t (1)", b"INSERT t (1)\n-- comment\nSCAN t\n"]
    paths = [os.path.join(tmp_path, name) for name in ("a.mmdb", "b.mmdb")]
    for path, script in zip(paths, scripts):
        with open(path, "wb") as file:
            file.write(script)
    done = run(*paths, script=b"SCAN t\n")
    assert (done.returncode, done.stdout) == (0, b"ok\nok 1\nerror 40 duplicate key\n(1)\nrows 1\n")


@pytest.mark.parametrize(
    "script, wanted",
    [
        (b"", b""),
        (b"\n\r\n  \t\n-- comment\n", b""),
        (b"BEGIN", b"ok\n"),
        (b"BEGIN\r", b"ok\n"),
        (b"BEGIN\r\r\n", b"error 11 syntax\n"),
        (b"BEGIN\nBEGIN\n", b"ok\nerror 50 transaction open\n"),
        (b".tables\n.quit\nBEGIN\n", b"error 11 syntax\nerror 11 syntax\nok\n"),
        (b"\xff\0\n", b"error 11 syntax\n"),
    ],
)
def test_ends_of_lines(script: bytes, wanted: bytes) -> None:
    assert answers(script) == wanted


@pytest.mark.parametrize("end", [b"", b"\n", b"\r\n", b"\r"])
@pytest.mark.parametrize("length", [4095, 4096, 4097, 4098, 8190, 8191, 8192, 8193, 16384, 100000])
def test_long_lines(length: int, end: bytes) -> None:
    wanted = b"" if length <= 4096 else b"error 10 line too long\n"
    assert answers(b"-" * length + end) == wanted
    assert answers(b" " * length + end) == wanted
    if end.endswith(b"\n"):
        assert answers(b"-" * length + end + b"BEGIN" + end) == wanted + b"ok\n"


def lines_within(script: bytes, most_bytes: int) -> tuple[list[bytes], bool]:
    """The lines of a script that may have so many bytes, and whether it has more."""
    found: list[bytes] = []
    try:
        for line in lines_of(io.BytesIO(script), most_bytes):
            found.append(line)
    except InputTooLong:
        return found, True
    return found, False


def test_lines_of_an_input_that_is_too_long() -> None:
    script = b"BEGIN\nCOMMIT\nBEGIN"
    for most in range(len(script)):
        assert lines_within(script, most) == (script[:most].split(b"\n")[:-1], True)
    assert lines_within(script, len(script)) == ([b"BEGIN", b"COMMIT", b"BEGIN"], False)
    for rest in (b"-" * 100000, b"-" * 100000 + b"\n", b"-" * 100000 + b"\nBEGIN\n"):
        assert lines_within(b"BEGIN\n" + rest, 100005) == ([b"BEGIN"], True)


def test_an_input_that_fails() -> None:
    class Failing(io.BytesIO):
        def readline(self, size: "int | None" = -1) -> bytes:
            line = super().readline(-1 if size is None else size)
            if not line:
                raise OSError(5, "Input/output error")
            return line

    out = io.BytesIO()
    with pytest.raises(OSError):
        run_script(Database(), Failing(b"BEGIN\nBEGIN\n"), out)
    assert out.getvalue() == b"ok\nerror 50 transaction open\n"


def test_a_reply_that_memory_is_refused_to() -> None:
    class Short(Database):
        def text(self) -> bytes:
            raise Refused(90)

    database = Short()
    assert reply_to(database, b"TABLE t (id INT KEY)") == b"ok\n"
    assert reply_to(database, b"INSERT t (1)") == b"ok 1\n"
    assert reply_to(database, b"SCAN t") == b"error 90 memory\n"
    assert reply_to(database, b"-- comment") == b""


def test_a_reply_is_written_before_the_next_line_is_read() -> None:
    with subprocess.Popen(SHELL, env=ENVIRONMENT, stdin=subprocess.PIPE, stdout=subprocess.PIPE) as process:
        assert process.stdin and process.stdout
        for line, reply in ((b"BEGIN\n", b"ok\n"), (b"nope\n", b"error 11 syntax\n"), (b"\nCOMMIT\n", b"ok\n")):
            process.stdin.write(line)
            process.stdin.flush()
            assert process.stdout.readline() == reply
        process.stdin.close()
        assert process.wait(60) == 0


def test_statuses_of_devices(tmp_path: "os.PathLike[str]") -> None:
    with open("/dev/full", "wb") as full:
        for script, status in ((b"BEGIN\n", 2), (b"\n", 0)):
            done = subprocess.run(SHELL, input=script, env=ENVIRONMENT, stdout=full, stderr=subprocess.PIPE, timeout=60)
            assert done.returncode == status
            assert done.stderr == (b"mmdb-shell: a device: No space left on device\n" if status else b"")
    missing = os.path.join(tmp_path, "missing")
    done = run(missing)
    assert (done.returncode, done.stdout) == (2, b"")
    assert done.stderr == f"mmdb-shell: {missing}: No such file or directory\n".encode()
    assert run(str(tmp_path)).returncode == 2


def test_a_reader_that_is_gone() -> None:
    pipe = subprocess.PIPE
    with subprocess.Popen(SHELL, env=ENVIRONMENT, stdin=pipe, stdout=pipe, stderr=pipe) as process:
        assert process.stdin and process.stdout and process.stderr
        process.stdout.close()
        process.stdin.write(b"BEGIN\n" * 3)
        process.stdin.close()
        assert process.wait(60) == 2
        assert process.stderr.read() == b""


def test_closed_streams() -> None:
    for closing in ("<&-", ">&-", "<&- >&-"):
        command = " ".join([*SHELL, closing])
        done = subprocess.run(command, shell=True, env=ENVIRONMENT, input=b"BEGIN\n", capture_output=True, timeout=60)
        assert done.returncode == 2


def test_help() -> None:
    done = run("--help")
    assert done.returncode == 0 and done.stdout.startswith(b"usage: mmdb-shell [-h] [FILE ...]")
