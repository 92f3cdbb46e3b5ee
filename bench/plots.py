#!/usr/bin/env python3
"""Draws the figures of bench/all: plots.py FOLDER reads FOLDER/figures.json and writes FOLDER/*.svg. Needs matplotlib.

The plots are instructions.svg, lines.svg and rows.svg (times per line and per row), growth.svg (times by the number of rows), memory.svg,
and embedded.svg (instructions of calls). Without the figures of its part, a plot is not drawn.
"""
import json
import sys
from pathlib import Path

import matplotlib

matplotlib.use("svg")
from matplotlib import pyplot
from matplotlib.ticker import LogLocator

from tables import middle_size

COLOURS = {"mmdb": "#1f5fa8", "prepared": "#e0892b", "parsed": "#f2cb9c"}
NAMES = {"mmdb": "mmdb", "prepared": "SQLite, prepared statements", "parsed": "SQLite, each line parsed"}
PER_LINE = {"query", "line", "pair of lines"}
# The works in growth.svg, one of each kind.
GROWTH = [
    "load, long lines, ascending keys",
    "`INDEX .. TREE` over all rows",
    "`SELECT` by key",
    "range of 100 values, TREE",
    "join by a foreign key (`precomputed`)",
    "`UPDATE` of an indexed column, by key",
    "change in a transaction",
    "change under a standing join",
    "change and `SHOW`, 50 rows by both tables",
]
pyplot.rcParams.update(
    {
        "svg.fonttype": "none",
        "svg.hashsalt": "mmdb",
        "font.family": "sans-serif",
        "font.size": 10,
        "axes.spines.top": False,
        "axes.spines.right": False,
        "axes.axisbelow": True,
        "axes.grid": True,
        "grid.color": "#dddddd",
        "legend.frameon": False,
    }
)


def written(figure, path):
    figure.savefig(path, format="svg", bbox_inches="tight", facecolor="white", metadata={"Date": None, "Creator": None})
    pyplot.close(figure)


def plain(work):
    return work.replace("`", "")


def bars(path, works, values, label):
    """Draws horizontal bars: a group for each work, with a bar for each system. A length of None has no bar."""
    systems = [name for name in COLOURS if any(each.get(name) is not None for each in values)]
    figure, axes = pyplot.subplots(figsize=(8, 0.5 + (0.16 + 0.18 * len(systems)) * len(works)))
    thick = 0.8 / len(systems)
    most = max(value for each in values for value in each.values() if value is not None)
    for place, name in enumerate(systems):
        for row, each in enumerate(values):
            if each.get(name) is None:
                continue
            at = row + (place - (len(systems) - 1) / 2) * thick
            axes.barh(at, each[name], thick * 0.92, color=COLOURS[name], label=NAMES[name] if row == first(values, name) else None)
            axes.text(each[name] + most * 0.006, at, shown(each[name]), va="center", fontsize=7.5, color="#444444")
    axes.set_yticks(range(len(works)), [plain(work) for work in works])
    axes.set_ylim(len(works) - 0.45, -0.55)
    axes.set_xlabel(label)
    axes.grid(axis="y", visible=False)
    axes.tick_params(axis="y", length=0)
    axes.legend(loc="lower right", bbox_to_anchor=(1, 1), ncols=len(systems), borderaxespad=0)
    written(figure, path)


def first(values, name):
    return next(row for row, each in enumerate(values) if each.get(name) is not None)


def shown(value):
    return f"{value:,.0f}" if value >= 100 else f"{value:.1f}" if value >= 10 else f"{value:.2f}"


def systems_of(each, scale):
    return {name: each[name] / scale if each.get(name) is not None else None for name in COLOURS}


def draw_instructions(folder, found):
    known = [each for each in found["operations"] if each["prepared"] is not None]
    bars(folder / "instructions.svg", [each["work"] for each in known], [systems_of(each, 1) for each in known], "instructions per line")


def draw_times(folder, found):
    at_middle = [each for each in found["figures"] if each["rows"] == found["middle"] and "change and the `SELECT`" not in each["work"]]
    for name, chosen, label in (
        ("lines.svg", [each for each in at_middle if each["unit"] in PER_LINE], "µs of processor time per line or pair of lines"),
        ("rows.svg", [each for each in at_middle if each["unit"] not in PER_LINE], "µs of processor time per row or change"),
    ):
        bars(folder / name, [each["work"] for each in chosen], [systems_of(each, 1_000) for each in chosen], f"{label}, {found['middle']:,} rows")
    draw_growth(folder, found)


def draw_growth(folder, found):
    works = [work for work in GROWTH if any(each["work"] == work for each in found["figures"])]
    if len(found["sizes"]) < 2 or not works:
        return
    columns = 3
    lines = -(-len(works) // columns)
    figure, grid = pyplot.subplots(lines, columns, figsize=(10, 2.5 * lines), sharex=True, squeeze=False)
    for place, axes in enumerate(grid.flat):
        if place >= len(works):
            axes.set_visible(False)
            continue
        points = [each for each in found["figures"] if each["work"] == works[place]]
        for name in ("mmdb", "prepared"):
            rows, taken = [each["rows"] for each in points], [each[name] / 1_000 for each in points]
            axes.plot(rows, taken, "o-", markersize=4, color=COLOURS[name], label=NAMES[name])
        axes.set_xscale("log")
        axes.set_yscale("log")
        values = [each[name] / 1_000 for each in points for name in ("mmdb", "prepared")]
        axes.set_ylim(min(values) / 2, max(values) * 2)
        axes.xaxis.set_major_locator(LogLocator())
        axes.xaxis.set_major_formatter(lambda rows, _: f"{rows:,.0f}")
        axes.yaxis.set_major_locator(LogLocator(subs=(1, 2, 5)))
        axes.yaxis.set_major_formatter(lambda value, _: f"{value:g}")
        axes.minorticks_off()
        axes.set_title(f"{plain(works[place])}\nµs per {points[0]['unit']}", fontsize=8.5)
        axes.tick_params(labelsize=8, labelbottom=True)
        if place >= len(works) - columns:
            axes.set_xlabel("rows", fontsize=8.5)
    handles, names = grid.flat[0].get_legend_handles_labels()
    figure.legend(handles, names, loc="lower right", ncols=2, bbox_to_anchor=(0.98, 1.0))
    figure.tight_layout()
    written(figure, folder / "growth.svg")


def draw_memory(folder, found):
    size = middle_size({each["rows"] for each in found})
    tables = [each for each in found if each["unit"] == "row" and each["rows"] == size]
    bars(folder / "memory.svg", [each["kind"] for each in tables], [systems_of(each, 1) for each in tables], f"bytes of resident memory per row, {size:,} rows")


def draw_calls(folder, found):
    chosen = [each for each in found if not each["transaction"]]
    systems, works = {"mmdb": "mmdb", "sqlite": "prepared"}, list(dict.fromkeys(each["work"] for each in chosen))
    values = [{systems[each["name"]]: each["instructions"] for each in chosen if each["work"] == work} for work in works]
    bars(folder / "embedded.svg", works, values, f"instructions of a call in the program's own process, {chosen[0]['rows']:,} rows")


DRAWN = {"instructions": draw_instructions, "times": draw_times, "memory": draw_memory, "counts": draw_calls}


def main(folder):
    figures = json.loads((folder / "figures.json").read_text())
    for part, draw in DRAWN.items():
        if part in figures:
            draw(folder, figures[part]["found"])


if __name__ == "__main__":
    if len(sys.argv) != 2:
        sys.exit(__doc__)
    main(Path(sys.argv[1]))
