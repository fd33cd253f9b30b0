#!/usr/bin/python3
"""Draws two pictures of what docs/speed/all.txt has, and prints the table at the top of docs/SPEED.md.

    tools/plots.py [FOLDER]
    tools/plots.py FILE BASE     prints such a table of what FILE has, as ratios to the table BASE, and draws nothing

docs/speed/all.svg, below that table, shows a million keys: by one thread to four, and by one alone. docs/speed/sizes.svg shows ten
thousand keys to ten million by one thread, a line a table; it is drawn where a table was measured with several numbers of keys.

To draw it needs matplotlib (Debian: python3-matplotlib, for the system's python3). Each point is the middle of all rounds; the table has the
best round and the middle one, as ratios to dashmap. With a FOLDER it reads all.txt there and draws there.
"""
import argparse
import collections
import pathlib
import statistics
import sys

try:
    import matplotlib

    matplotlib.use("svg")
    import matplotlib.pyplot as plt
except ModuleNotFoundError:
    matplotlib = None

SPEED = pathlib.Path(__file__).resolve().parent.parent / "docs" / "speed"
BASE = "dashmap"
STEPS = "plain-steps"
# Each table's words in the table and the legend, and its line: a hue for a kind of table, dashes for boxes.
TABLES = {
    "held-in-place": ("HeldRawTable, InPlace", "#2ca02c", "v-"),
    "held": ("HeldRawTable, Box", "#2ca02c", "v--"),
    "held-set": ("HeldSet, InPlace", "#8c564b", "^-"),
    "held-shards": ("HeldShardedTable, InPlace", "#8c564b", "^--"),
    "shared-in-place": ("LockFreeRawTable, InPlace", "#1f77b4", "o-"),
    "shared": ("LockFreeRawTable, Box", "#1f77b4", "o--"),
    "shared-set": ("SharedSet", "#9467bd", "s-"),
    "shared-shards": ("ShardedLockFreeRawTable, InPlace", "#1f77b4", "o:"),
    STEPS: ("the original's steps, Box", "#000000", "P-"),
    "original": ("the Rust original, Box", "#000000", "P--"),
    "dashmap": ("dashmap, Box", "#d62728", "x-"),
    "dashmap-u64": ("dashmap, u64", "#d62728", "x--"),
    "rwlock-HashSet": ("RwLock of a HashSet, Box", "#7f7f7f", "+-"),
    "std-HashSet": ("std HashSet, Box", "#bcbd22", "d-"),
    "tbb-unordered_set": ("TBB unordered_set", "#ff7f0e", "*-"),
    "libcuckoo": ("libcuckoo", "#e377c2", "p-"),
    "urcu-lfht-presized": ("liburcu, buckets made ahead", "#17becf", "h-"),
}
COUNTS = [1, 2, 3, 4]
SIZES = {10**4: "1e4", 10**5: "1e5", 10**6: None, 10**7: "1e7"}
WORKS = [("e_ins", "inserts of new keys"), ("d_same", "inserts of keys that are there"), ("f_hit", "look-ups that find")]
LOOKS = [("ins", "a_ins1", "inserts"), ("hit", "b_hit1", "look-ups that find"), ("miss", "c_miss1", "look-ups that don't")]
COLUMNS = [("a_ins1", "insert"), ("b_hit1", "hit"), ("c_miss1", "miss"), ("seq_ins1", "insert in order"), ("seq_hit1", "hit in order"),
           ("e_ins4", "insert, 4 threads"), ("d_same4", "insert of what is there, 4"), ("f_hit4", "hit, 4 threads")]


def numbers(file):
    """The numbers of all rounds, by table and measurement: of what two groups of a round have the one of the later group."""
    rounds = {}
    for line in file.read_text(encoding="ascii").splitlines():
        if line.startswith("#"):
            of_round = line.split()[2]
        else:
            name, measurement, number = line.split()
            rounds[name, measurement, of_round] = float(number)
    found = collections.defaultdict(lambda: collections.defaultdict(list))
    for (name, measurement, _), number in rounds.items():
        found[name][measurement].append(number)
    return found


def by_threads(of, work):
    named = {count: f"{work[0]}{count}" for count in COUNTS}
    return [(count, statistics.median(of[it])) for count, it in named.items() if it in of]


def by_keys(of, look):
    named = {keys: f"{look[0]}_{size}" if size else look[1] for keys, size in SIZES.items()}
    return [(keys, statistics.median(of[it])) for keys, it in named.items() if it in of]


def draw_lines(axis, found, panel, points_of, drawn):
    """One line a table."""
    for name, (words, colour, style) in TABLES.items():
        points = points_of(found[name], panel) if name in found else []
        if points:
            (drawn[words],) = axis.plot(*zip(*points), style, color=colour, markersize=6)
    axis.set_yscale("log")
    low, high = axis.get_ylim()
    axis.set_ylim(min(low, high / 5), high)
    axis.yaxis.set_major_locator(matplotlib.ticker.LogLocator(subs=(1, 2, 5)))
    axis.yaxis.set_major_formatter(matplotlib.ticker.FormatStrFormatter("%g"))
    axis.yaxis.set_minor_formatter(matplotlib.ticker.NullFormatter())
    axis.set_ylabel("ns an operation")
    axis.grid(True, which="major", alpha=0.3)


def draw_bars(axis, found, look):
    """One bar a table, of a million keys: hatched where values are boxes."""
    shown = [name for name in TABLES if look[1] in found.get(name, {})]
    middles = [statistics.median(found[name][look[1]]) for name in shown]
    colours = [TABLES[name][1] for name in shown]
    for at, (name, middle, colour) in enumerate(zip(shown, middles, colours)):
        hatch = "" if "InPlace" in TABLES[name][0] or name == "shared-set" else "///"
        axis.barh(at, middle, color=colour, alpha=0.75, hatch=hatch, edgecolor="white")
        axis.text(middle, at, f" {middle:.0f}", va="center", fontsize=8)
    axis.set_yticks(range(len(shown)), [TABLES[name][0] for name in shown], fontsize=8)
    axis.invert_yaxis()
    axis.set_xlim(0, max(middles, default=1) * 1.15)
    axis.set_xlabel("ns an operation, one thread, 10^6 keys")


def draw_threads(found, file):
    """A million keys: above by one thread to four, below by one."""
    figure, axes = plt.subplots(2, 3, figsize=(13, 9))
    drawn = {}
    for axis, work in zip(axes[0], WORKS):
        draw_lines(axis, found, work, by_threads, drawn)
        axis.set_title(work[-1])
        axis.set_xticks(COUNTS)
        axis.set_xlabel("threads at once, " + ("10^4 keys" if work[0] == "d_same" else "10^6 keys"))
    for axis, look in zip(axes[1], LOOKS):
        axis.set_title(look[-1])
        draw_bars(axis, found, look)
    finish(figure, drawn, "Nanoseconds an operation, all threads together: less is better", file)


def draw_sizes(found, file):
    """One thread, ten thousand keys to ten million."""
    figure, axes = plt.subplots(1, 3, figsize=(13, 6))
    drawn = {}
    for axis, look in zip(axes, LOOKS):
        draw_lines(axis, found, look, by_keys, drawn)
        axis.set_title(look[-1])
        axis.set_xscale("log")
        axis.set_xlim(min(SIZES) / 2, max(SIZES) * 2)
        axis.set_xticks(list(SIZES))
        axis.set_xlabel("keys")
    finish(figure, drawn, "Nanoseconds an operation, one thread: less is better", file)


def finish(figure, drawn, title, file):
    """Writes the picture, with a legend of what was drawn below it."""
    figure.suptitle(title)
    figure.legend(drawn.values(), drawn.keys(), loc="lower center", ncol=4, frameon=False, handlelength=4)
    inches = 0.27 + 0.225 * ((len(drawn) + 3) // 4)
    figure.tight_layout(rect=(0, inches / figure.get_figheight(), 1, 1))
    figure.savefig(file, metadata={"Date": None})


def ratio(of, base, measurement):
    if measurement not in of or measurement not in base:
        return ""
    return ", ".join(f"{least(of[measurement]) / least(base[measurement]):.2f}" for least in (min, statistics.median))


def table(found, base):
    """The table of ratios to the base, of the best rounds and of the middle ones, with the bytes of an entry."""
    base_words = TABLES[base][0].split(",")[0] if base in TABLES else base
    heads = [f"ratio to {base_words}", *(words for _, words in COLUMNS), "bytes an entry"]
    rows = ["| " + " | ".join(heads) + " |", "|---" * len(heads) + "|"]
    for name, (words, _, _) in TABLES.items():
        if name in found:
            of = found[name]
            bytes_each = f"{min(of['g_rss']):.0f}" if "g_rss" in of else ""
            cells = [ratio(of, found[base], it) for it, _ in COLUMNS]
            rows.append(f"| {words} | " + " | ".join(cells) + f" | {bytes_each} |")
    return "\n".join(rows)


def main():
    parser = argparse.ArgumentParser(description=__doc__, formatter_class=argparse.RawDescriptionHelpFormatter)
    parser.add_argument("place", nargs="?", type=pathlib.Path, default=SPEED, metavar="FOLDER|FILE")
    parser.add_argument("base", nargs="?", metavar="BASE")
    asked = parser.parse_args()
    if asked.base:
        print(table(numbers(asked.place), asked.base))
        return
    if matplotlib is None:
        sys.exit("there is no matplotlib to draw with: install python3-matplotlib")
    matplotlib.rcParams["svg.hashsalt"] = "tables"
    matplotlib.rcParams["svg.fonttype"] = "path"
    found = numbers(asked.place / "all.txt")
    draw_threads(found, asked.place / "all.svg")
    if any(len(by_keys(of, look)) > 1 for of in found.values() for look in LOOKS):
        draw_sizes(found, asked.place / "sizes.svg")
    print(table(found, BASE))


if __name__ == "__main__":
    main()
