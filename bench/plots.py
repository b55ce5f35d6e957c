"""Draws what was measured as pictures (SVG), by Debian's package python3-matplotlib: growth, and what it is held against."""

import os

# The same rows make the same files.
SETTINGS = {"svg.hashsalt": "shex", "svg.fonttype": "none", "font.size": 9}
METADATA = {"Date": None}

GREY = "#666666"


def library():
    """The module that draws; none where it is not installed."""
    try:
        import matplotlib
    except ImportError:
        return None
    matplotlib.use("Agg")
    matplotlib.rcParams.update(SETTINGS)
    from matplotlib import pyplot

    return pyplot


def series(rows, step):
    """The points of each family, triples and seconds, where the step was run to its end at two sizes or more."""
    points = {}
    for row in rows:
        run = row.steps.get(step)
        if run and run.status != "late":
            points.setdefault(row.family, []).append((row.triples, run.seconds))
    return {family: each for family, each in points.items() if len(each) > 1}


def growth(pyplot, rows, path):
    """Seconds of `validate` over triples, on scales on which a straight line of slope 1 is linear growth."""
    figure, axes = pyplot.subplots(figsize=(7, 4.5))
    for family, points in series(rows, "validate").items():
        axes.plot(*zip(*points), marker="o", markersize=3, linewidth=1, label=family)
    low, high = axes.get_xlim()
    low = max(low, 1_000)
    axes.plot([low, high], [low * 2e-6, high * 2e-6], color=GREY, linestyle=":", linewidth=1, label="2 µs a triple")
    axes.set(xscale="log", yscale="log", xlabel="triples", ylabel="seconds of validate, a whole process")
    axes.legend(fontsize=7, ncols=2)
    figure.tight_layout()
    figure.savefig(path, metadata=METADATA)
    pyplot.close(figure)


def beside(pyplot, rows, path):
    """Seconds of a load beside serdi, and of `validate` beside Jena, at the greatest size at which both ran."""
    pairs = [("load .ttl", "serdi", "load of Turtle", "serdi -q"), ("validate", "Jena", "validate", "Jena")]
    figure, both = pyplot.subplots(1, 2, figsize=(8, 3.5))
    for axes, (step, other, name, other_name) in zip(both, pairs):
        greatest = {row.family: row for row in rows if all(each in row.steps and row.steps[each].status != "late" for each in (step, other))}
        names = [f"{family}\n{row.triples:,}" for family, row in greatest.items()]
        places = range(len(names))
        axes.barh([at + 0.2 for at in places], [row.steps[step].seconds for row in greatest.values()], 0.4, label=f"shex, {name}")
        axes.barh([at - 0.2 for at in places], [row.steps[other].seconds for row in greatest.values()], 0.4, label=other_name, color=GREY)
        axes.set_yticks(list(places), names, fontsize=7)
        axes.set_xlabel("seconds")
        axes.legend(fontsize=7)
    figure.tight_layout()
    figure.savefig(path, metadata=METADATA)
    pyplot.close(figure)


def draw(rows, folder):
    """Draws both pictures into the folder, and says what was drawn, or that nothing can be."""
    pyplot = library()
    if pyplot is None:
        return "No pictures: python3-matplotlib is not installed for this Python."
    os.makedirs(folder, exist_ok=True)
    growth(pyplot, rows, os.path.join(folder, "growth.svg"))
    beside(pyplot, rows, os.path.join(folder, "beside.svg"))
    return f"Pictures: {os.path.join(folder, 'growth.svg')}, {os.path.join(folder, 'beside.svg')}."
