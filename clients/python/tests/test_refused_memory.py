"""Each call is refused each growth of memory in turn: refused_memory.py says what must hold then."""

import os
import re
import shutil
import subprocess
import sys

import mmdb
import pytest

HERE = os.path.dirname(os.path.abspath(__file__))
PACKAGE = os.path.dirname(os.path.dirname(os.path.abspath(mmdb.__file__)))


@pytest.mark.parametrize("allocator, least", [("pymalloc", 50), ("malloc", 300)])
def test_each_growth_is_refused(allocator: str, least: int, tmp_path: "os.PathLike[str]") -> None:
    """With malloc for all objects of Python, their growths are refused too."""
    compiler = os.environ.get("CC", "cc")
    if shutil.which(compiler) is None:
        pytest.skip("there is no C compiler")
    library = os.path.join(tmp_path, "refuse.so")
    subprocess.run([compiler, "-O2", "-shared", "-fPIC", "-o", library, os.path.join(HERE, "refuse.c")], check=True)
    environment = {**os.environ, "PYTHONPATH": PACKAGE, "LD_PRELOAD": library, "PYTHONMALLOC": allocator, "PYTHONHASHSEED": "0"}
    command = [sys.executable, os.path.join(HERE, "refused_memory.py")]
    ended = subprocess.run(command, env=environment, capture_output=True, text=True, check=False, timeout=600)
    assert ended.returncode == 0 and ended.stderr == "", ended.stdout + ended.stderr
    growths = re.match(r"(\d+) growths were refused to (\d+) calls", ended.stdout)
    assert growths is not None and int(growths[1]) > least
