"""Makes the tables of docs/benchmarks/figures.md and README.md from the figures of bench/all."""

import re


def middle_size(sizes):
    """Returns the number of rows for the plots of single works: the largest number up to 100,000."""
    return max((size for size in sizes if size <= 100_000), default=min(sizes))


def time_of(nanoseconds):
    """Returns a time with its unit, to about three digits."""
    for limit, unit in ((1_000, "ns"), (1_000_000, "µs"), (1_000_000_000, "ms")):
        if nanoseconds < limit:
            return f"{digits(nanoseconds / limit * 1_000)} {unit}"
    return f"{digits(nanoseconds / 1_000_000_000)} s"


def digits(number):
    """Returns a number with about three digits, or a dash for None."""
    if number is None:
        return "-"
    return f"{number:,.0f}" if abs(number) >= 100 else f"{number:.1f}" if abs(number) >= 10 else f"{number:.2f}"


def ratio(one, other):
    return "-" if one is None or not other else f"{one / other:.2f}" if one < 10 * other else f"{one / other:.0f}"


def table(heads, rows):
    """Returns the lines of a table. The first column and columns whose head ends with a space are aligned to the left."""
    line = "|" + "|".join("---" if not place or head.endswith(" ") else "--:" for place, head in enumerate(heads)) + "|"
    return ["| " + " | ".join(head.strip() for head in heads) + " |", line, *("| " + " | ".join(row) + " |" for row in rows), ""]


def instructions(found):
    rows = [
        [each["work"], digits(each["mmdb"]), digits(each["prepared"]), ratio(each["mmdb"], each["prepared"]), f"{each['allocations']:.1f}"]
        for each in found["operations"]
    ]
    return [
        f"Figures per line, over {found['rows']:,} rows. Instructions are those in user space.",
        "",
        *table(["Line", "mmdb", "SQLite, prepared", "mmdb / SQLite", "allocations, mmdb"], rows),
    ]


def times(found):
    lines, middle = [], found["middle"]
    lines += [f"### At {middle:,} rows", ""]
    rows = []
    for each in found["figures"]:
        if each["rows"] == middle:
            ratios = [ratio(each["mmdb"], each[name]) for name in ("prepared", "parsed")]
            rows.append([each["work"], each["unit"], *(time_of(each[name]) for name in ("mmdb", "prepared", "parsed")), *ratios])
    lines += table(["Work", "Per ", "mmdb", "SQLite, prepared", "SQLite, parsed", "mmdb / prepared", "mmdb / parsed"], rows)
    lines += ["### By rows", "", "Each cell contains mmdb and SQLite with prepared statements.", ""]
    by_work = {}
    for each in found["figures"]:
        by_work.setdefault((each["work"], each["unit"]), {})[each["rows"]] = each
    rows = [
        [work, unit, *(f"{time_of(cells[size]['mmdb'])}, {time_of(cells[size]['prepared'])}" if size in cells else "-" for size in found["sizes"])]
        for (work, unit), cells in by_work.items()
    ]
    return lines + table(["Work", "Per ", *(f"{size:,}" for size in found["sizes"])], rows)


def memory(found):
    by_kind = {}
    for each in found:
        by_kind.setdefault((each["kind"], each["unit"]), {})[each["rows"]] = each
    sizes = sorted({each["rows"] for each in found})
    rows = [
        [kind, unit, *(f"{digits(cells[size]['mmdb'])}, {digits(cells[size]['prepared'])}" for size in sizes)]
        for (kind, unit), cells in by_kind.items()
    ]
    return [
        "Bytes: the peak of resident memory with the work, minus the peak without it. Each cell contains mmdb and SQLite.",
        "",
        *table(["Work", "Per ", *(f"{size:,}" for size in sizes)], rows),
    ]


def structures(found):
    passes = ["ascending", "insert", "look-up", "walk", "remove"]
    rows = [
        [
            f"`{each['structure']}`" + ("" if each["side"] == "mmdb" else ", plain Rust"),
            f"{each['entries']:,}",
            *(digits(each["ns"].get(name)) for name in passes),
            *(digits(each["bytes"].get(name)) for name in ("ascending", "insert")),
        ]
        for each in sorted(found["structures"], key=lambda each: ORDER.get(each["structure"], len(ORDER)))
    ]
    searches = [[SEARCHED[each["query"]], each["row"], digits(each["ns"])] for each in found["irrelevance"]]
    return [
        "Nanoseconds and bytes of heap per entry. The bytes are those after the ascending inserts, and after the others.",
        "",
        *table(["Structure", "Entries", *passes, "bytes ascending", "bytes"], rows),
        "The search that shows a row to be irrelevant for a standing query, in nanoseconds per row:",
        "",
        *table(["Query", "Row ", "ns"], searches),
    ]


def calls_by_work(found, in_transaction):
    """Returns, for each work, the figures of both systems by the number of rows and the system."""
    works = {}
    for each in found:
        if each["transaction"] == in_transaction:
            works.setdefault(each["work"], {})[each["rows"], each["name"]] = each
    return works


def calls(found):
    sizes = sorted({each["rows"] for each in found})
    heads = ["Call", *(head for size in sizes for head in (f"{size:,} rows: mmdb", "SQLite"))]
    lines = ["Nanoseconds per call, outside a transaction:", ""]
    for in_transaction in (False, True):
        works = calls_by_work(found, in_transaction)
        rows = [
            [work, *(f"{cells[size, name]['nanoseconds']:,.0f}" for size in sizes for name in ("mmdb", "sqlite"))]
            for work, cells in works.items()
            if not in_transaction or not is_look_up(work)
        ]
        lines += table(heads, rows) if in_transaction else [*table(heads, rows), "In a transaction, with its `COMMIT`:", ""]
    return lines


def is_look_up(work):
    return work.startswith(("look-up", "range", "join"))


def counts(found):
    outside, inside = (calls_by_work(found, in_transaction) for in_transaction in (False, True))
    size = found[0]["rows"]

    def cell(each):
        return f"{each['instructions']:,.0f}, {each['allocations']:.0f}"

    rows = [[work, *(cell(cells[work][size, name]) for cells in (outside, inside) for name in ("mmdb", "sqlite"))] for work in outside]
    heads = ["Call", "mmdb", "SQLite", "mmdb, in a transaction", "SQLite, in a transaction"]
    return [f"Instructions and allocations of a call over {size:,} rows:", "", *table(heads, rows)]


def clients(found):
    def cell(number):
        return "" if number is None else f"{number:,.0f}"

    rows = [[each["from"], *(cell(each[key]) for key in ("look-up", "many", "one"))] for each in found["clients"]]
    heads = ["From", "look-up by key", "`INSERT`, many per call", "`INSERT`, one per call"]
    return [f"Nanoseconds per call, {found['rows']:,} rows:", "", *table(heads, rows)]


SEARCHED = {"two_atoms": "`a.c0 < b.c0 AND b.c0 < 3`", "ring": "a ring of sixteen equalities"}
ORDER = {
    name: place
    for place, name in enumerate(
        "HashRefs LinearHash HashMap HashRefs_of_25 LinearHash_of_25 TTree unsafe_TTree BTreeSet SortedRefs sorted_Vec Partitions slots".split()
    )
}
PARTS = [
    ("instructions", "Instructions and allocations", instructions),
    ("times", "Times", times),
    ("memory", "Memory", memory),
    ("calls", "Calls", calls),
    ("counts", "Instructions and allocations of calls", counts),
    ("clients", "Calls from other languages", clients),
    ("structures", "Structures", structures),
]


def where_made(made):
    """Returns a line with the version and the machine of a part, as far as they are known, or an empty text."""
    version = f" with version {made['version']}" if made.get("version") else ""
    on = made.get("machine")
    if not on:
        return f"Measured{version}." if version else ""
    machine = f"{on['processors']} processors ({on['processor']}), {on['memory']} of memory, {on['system']}"
    return f"Measured{version} on {machine}, in {made['seconds']:,} s; load at the start {on['load']}."


def document(figures):
    lines = [
        "# Figures",
        "",
        "`bench/all` wrote this file and its plots. [BENCHMARKS.md](../BENCHMARKS.md) describes what is measured.",
        "",
        f"The version of SQLite is {figures.get('sqlite', 'unknown')}.",
        "",
    ]
    for part, head, body in PARTS:
        if part in figures:
            made = where_made(figures[part])
            lines += [f"## {head}", "", *([made, ""] if made else []), *body(figures[part]["found"])]
    return "\n".join(lines).rstrip() + "\n"


# ---- the table inside README.md

IN_README = {
    "look-up by key": "look-up by key",
    "look-up by HASH": "look-up by HASH",
    "range of ten along a TREE index": "range of ten values along a TREE index",
    "`INSERT`": "`INSERT` with two indexes",
    "`UPDATE` of an indexed column": "`UPDATE` of an indexed column, by key",
    "a change, and `SHOW` of its list": "a change, then the standing query's list (SQLite: triggers)",
}


def comparison(ours, theirs):
    return f"{theirs / ours:.1f} times faster" if ours <= theirs else f"{ours / theirs:.1f} times slower"


def calls_in_short(figures):
    made = figures["calls"]
    works = calls_by_work(made["found"], False)
    size = min(each["rows"] for each in made["found"])
    rows = []
    for work, name in IN_README.items():
        ours, theirs = (works[work][size, system]["nanoseconds"] for system in ("mmdb", "sqlite"))
        rows.append([name, f"{ours / 1_000:.2f} µs", f"{theirs / 1_000:.2f} µs", comparison(ours, theirs)])
    return [
        f"Processor time of one call in version {made['version']}, compared with SQLite {figures['sqlite']}, with {size:,} rows in memory and"
        " prepared statements:",
        "",
        *table(["Call", "mmdb", "SQLite", "mmdb is"], rows),
    ]


MARK, END = "<!-- figures -->", "<!-- end -->"


def readme(text, figures):
    """Returns README.md with the table of calls between its marks."""
    body = "\n".join(calls_in_short(figures)).rstrip()
    pattern = re.compile(re.escape(MARK) + r"\n.*?" + re.escape(END), re.DOTALL)
    return pattern.sub(lambda _: f"{MARK}\n{body}\n{END}", text)
