"""pandas reads queries and writes rows by a connection."""

import mmdb
import pytest

pandas = pytest.importorskip("pandas")


@pytest.mark.filterwarnings("ignore:pandas only supports SQLAlchemy")
def test_read_sql_query(papers: mmdb.Connection) -> None:
    frame = pandas.read_sql_query("SELECT p.id, a.name, p.title FROM paper p, author a WHERE p.by = a.id", papers)
    assert list(frame.columns) == ["id", "name", "title"] and len(frame) == 3
    assert frame["id"].dtype == "int64" and frame["name"].tolist() == ["Lehman", "Carey", "Lehman"]
    found = pandas.read_sql_query("SELECT a.name FROM author a WHERE a.id = ?", papers, params=(2,))
    assert found["name"].tolist() == ["Lehman"]
    assert len(pandas.read_sql_query("SELECT a.name FROM author a WHERE a.id = 77", papers)) == 0
    chunks = list(pandas.read_sql_query("SCAN paper", papers, chunksize=2, index_col="id"))
    assert [len(chunk) for chunk in chunks] == [2, 1]


def test_columns_of_a_frame(connection: mmdb.Connection) -> None:
    frame = pandas.DataFrame({"id": [3, 1, 2], "name": ["c", "a", "b"]})
    connection.execute("TABLE t (id INT KEY, name TEXT)")
    connection.executecolumns("INSERT t (?, ?)", (frame["id"].to_numpy(), frame["name"].tolist()))
    assert connection.execute("SCAN t").fetchall() == [(1, "a"), (2, "b"), (3, "c")]
    columns = connection.execute("SCAN t").fetchcolumns()
    assert pandas.Series(columns["id"]).sum() == 6
