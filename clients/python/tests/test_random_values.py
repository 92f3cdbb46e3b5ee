"""Any value that a program may pass: it comes back as it was, or the exception says why not."""

import tempfile

import mmdb
import pytest
from hypothesis import given, settings
from hypothesis import strategies as st
from hypothesis.configuration import set_hypothesis_home_dir
from random_given import GivenValues
from random_model import Expected, bytes_of
from random_runner import Runner
from random_steps import Values

# What it keeps of the characters it draws from is not kept in this folder.
set_hypothesis_home_dir(tempfile.mkdtemp())
LIMITS = st.sampled_from([2**63 - 1, 2**63, -(2**63), -(2**63) - 1])
TEXTS = st.text(st.characters(), max_size=70)
NUMBERS = st.one_of(st.integers(), st.integers(-(2**63), 2**63 - 1), LIMITS, st.booleans())
VALUES = st.one_of(NUMBERS, TEXTS, st.binary(max_size=70), st.floats(), st.none())


@settings(max_examples=400, deadline=None, database=None, derandomize=True)
@given(values=st.lists(VALUES, max_size=20))
def test_values(values: list[object]) -> None:
    model = GivenValues(Runner(), Values("list", ()))
    connection = mmdb.connect(autocommit=True)
    connection.execute("TABLE numbers (id INT KEY, n INT)")
    connection.execute("TABLE texts (id INT KEY, s TEXT)")
    for key, value in enumerate(values):
        table = "numbers" if isinstance(value, int) else "texts"
        try:
            cell = model.cell(value)
            if isinstance(cell, bytes) and b"\n" in cell:
                raise Expected(mmdb.DataError)
        except Expected as expected:
            with pytest.raises(mmdb.Error) as raised:
                connection.execute(f"INSERT {table} (?, ?)", (key, value))
            assert expected.is_met_by(raised.value)
            assert connection.execute(f"SELECT a.id FROM {table} a WHERE a.id = ?", (key,)).fetchall() == []
            continue
        connection.execute(f"INSERT {table} (?, ?)", (key, value))
        column = "n" if table == "numbers" else "s"
        [(found,)] = connection.execute(f"SELECT a.{column} FROM {table} a WHERE a.id = ?", (key,)).fetchall()
        assert found == cell if isinstance(found, int) else bytes_of(found) == cell
        assert (key,) in connection.execute(f"SELECT a.id FROM {table} a WHERE a.{column} = ?", (value,)).fetchall()
    connection.close()
