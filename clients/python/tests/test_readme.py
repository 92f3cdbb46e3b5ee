"""The programs of README.md run as they stand there, one after the other, and print what stands behind them."""

import contextlib
import io
import os
import re

README = os.path.join(os.path.dirname(os.path.dirname(os.path.abspath(__file__))), "README.md")
BLOCK = re.compile(r"^```python\n(.*?)^```\n(?:\nprints\n\n^```text\n(.*?)^```\n)?", re.MULTILINE | re.DOTALL)


def test_programs() -> None:
    with open(README, encoding="utf-8") as file:
        programs = BLOCK.findall(file.read())
    assert len(programs) >= 3
    names: dict[str, object] = {}
    for program, wanted in programs:
        written = io.StringIO()
        with contextlib.redirect_stdout(written):
            exec(compile(program, "README.md", "exec"), names)
        assert written.getvalue() == wanted
