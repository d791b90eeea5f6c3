"""Charts of stored results of `large`: reads its tables, and draws them by matplotlib."""

import programs

KINDS_TITLE = "Kinds of globs"
MEASURED = ("ms", "MB", "µs a path")
# What is drawn for each kind: a column of `MEASURED`, and its title.
DRAWN = (("ms", "ms to make"), ("µs a path", "µs a path"))
STYLES = {"Baseline": ("s--", "#c05020"), "globsift": ("o-", "#2060a0")}


def titles(names):
    """The titles of the columns behind the kind and the number of globs."""
    return [f"{name} {what}" for what in MEASURED for name in names]


def number(cell):
    """The number in a cell of a table, or None if it says that a run failed."""
    try:
        return float(cell.replace(",", ""))
    except ValueError:
        return None


def rows_under(head, path):
    """The rows of the table under a head, each as a list of cells; the first one has the titles."""
    with open(path, encoding="utf-8") as file:
        text = file.read()
    rows = [
        [cell.strip() for cell in line.strip("|").split("|")]
        for line in text.partition(f"\n## {head}\n")[2].partition("\n## ")[0].splitlines()
        if line.startswith("|")
    ]
    # The second line of a table separates the titles from the rows.
    return rows[:1] + rows[2:]


def stored_costs(path):
    """For each kind and number of globs the numbers of a file of results, by the titles of their columns."""
    columns, *rows = rows_under(KINDS_TITLE, path) or [[]]
    found = {}
    for kind, count, *cells in rows:
        found.setdefault(kind, {})[int(number(count))] = dict(zip(columns[2:], map(number, cells)))
    return found


def joined_costs(paths):
    """The same of several files; of rows that more than one has, those of the last."""
    joined = {}
    for path in paths:
        for kind, rows in stored_costs(path).items():
            joined.setdefault(kind, {}).update(rows)
    return joined


def draw_line(axes, name, rows, column):
    """The costs of a program by the number of globs. The line ends where a run failed."""
    points = [(count, costs.get(f"{name} {column}")) for count, costs in sorted(rows.items())]
    # A logarithmic axis has no place for 0, which a difference of two times may be.
    points = [(count, max(cost, 1e-3)) for count, cost in points if cost is not None]
    if points:
        form, color = STYLES[name]
        axes.plot(*zip(*points), form, color=color, markersize=3, linewidth=1, label=name)


def draw(paths, charts):
    """Draws for each kind in files of results the time to make a set and the cost of a path.

    The same results give the same file.
    """
    try:
        import matplotlib
    except ImportError:
        programs.say(f"{charts} is not drawn: python3-matplotlib is not installed")
        return
    matplotlib.use("svg")
    # Text is left as text, which keeps the file small.
    matplotlib.rcParams.update({"svg.hashsalt": "large", "svg.fonttype": "none", "font.size": 7})
    import matplotlib.pyplot as pyplot

    costs = joined_costs(paths)
    counts = sorted({count for rows in costs.values() for count in rows})
    height = (len(costs) + 1) // 2
    figure, grid = pyplot.subplots(height, 4, figsize=(10, 1.7 * height + 0.4), squeeze=False, layout="constrained")
    for axes in grid.flat[2 * len(costs) :]:
        axes.set_visible(False)
    charts_of_costs = [(kind, rows, *drawn) for kind, rows in costs.items() for drawn in DRAWN]
    for axes, (kind, rows, column, title) in zip(grid.flat, charts_of_costs):
        for name in STYLES:
            draw_line(axes, name, rows, column)
        axes.set(xscale="log", yscale="log", title=f"{kind}: {title}", xticks=counts)
        axes.set_xlim(counts[0] / 1.5, counts[-1] * 1.5)
        # Most of the file would be marks between the powers of ten.
        axes.minorticks_off()
        axes.grid(True, linewidth=0.3)
    grid.flat[0].legend()
    figure.savefig(charts, metadata={"Date": None})
