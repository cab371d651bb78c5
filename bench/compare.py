#!/usr/bin/env python3
"""Builds and asks the same points with annbuild, hnswlib and FAISS, side by side, and writes docs/BENCHMARKS.md.

    bench/compare.py PROGRAM [--quick] [--out FOLDER]

PROGRAM is a built annbuild. Each build is a process of its own: its processor time and peak memory are what the system says
of that process, reading and writing of files among them. Each is made twice with one thread and twice with four, in turns,
and the lesser time counts. Queries run on one thread at growing widths of the search list; the time is that of the
searches alone: the peers' programs tell it, and for annbuild it is what all queries take less what one of them takes.
"""

import argparse
import datetime
import os
import platform
import subprocess
import sys
import tempfile

import numpy

HERE = os.path.dirname(os.path.abspath(__file__))
DOCS = os.path.join(HERE, "..", "docs")
DEGREE, BEAM, K = 32, 128, 10
WIDTHS = [10, 16, 24, 32, 48, 64, 96, 128, 192]
SETS = [(20_000, 16), (10_000, 128), (100_000, 16)]
QUERIES = 5_000
THREADS = (1, 4)


def clustered(count, dim, random, centres):
    """Points around centres: each number is the centre's and a normal gap, cut to a byte."""
    near = centres[random.integers(0, len(centres), count)] + random.normal(0, 12, (count, dim))
    return numpy.clip(numpy.rint(near), 0, 255).astype(numpy.uint8)


def make_set(kind, count, dim):
    """Points and queries of one distribution."""
    random = numpy.random.default_rng([count, dim, kind == "clustered"])
    if kind == "uniform":
        return tuple(random.integers(0, 256, (n, dim), dtype=numpy.uint8) for n in (count, QUERIES))
    centres = random.uniform(30, 225, (100, dim))
    return clustered(count, dim, random, centres), clustered(QUERIES, dim, random, centres)


def write_u8bin(name, points):
    with open(name, "wb") as file:
        numpy.array(points.shape, "<u4").tofile(file)
        points.tofile(file)


def exact_reach(points, queries):
    """The squared distance of each query's K-th nearest point: an answer counts if it is no farther."""
    points = points.astype(numpy.float32)
    squares = (points * points).sum(1)
    reach = numpy.empty(len(queries))
    for i, query in enumerate(queries.astype(numpy.float32)):
        distances = squares - 2 * (points @ query) + query @ query
        reach[i] = numpy.partition(distances, K - 1)[K - 1]
    return reach


def recall_of(points, queries, reach, ids):
    """The share of the K nearest that answers hold; ties at the K-th place count."""
    gaps = points[ids].astype(numpy.int64) - queries[:, None, :].astype(numpy.int64)
    return float(((gaps * gaps).sum(2) <= reach[:, None] + 0.5).mean())


def measured(words):
    """Runs a process, and tells its processor seconds, wall seconds, peak memory in MB, and what it printed."""
    with tempfile.NamedTemporaryFile("r") as told:
        timed = ["/usr/bin/time", "-f", "%e %M", "-o", told.name, *words]
        process = subprocess.Popen(timed, stdout=subprocess.PIPE)
        printed = process.stdout.read()
        _, status, used = os.wait4(process.pid, 0)
        if status:
            sys.exit(f"{' '.join(words)}: status {status}")
        wall, memory = map(float, told.read().split())
    return used.ru_utime + used.ru_stime, wall, memory / 1024, printed


class Annbuild:
    def __init__(self, program, kind):
        self.program, self.kind, self.name = program, kind, f"annbuild {kind}"

    def build_words(self, points, index, threads):
        given = {
            "vamana": ["--degree", str(DEGREE), "--beam", str(BEAM)],
            "hnsw": ["--kind", "hnsw", "--degree", str(DEGREE // 2), "--beam", str(BEAM)],
            "nnd": ["--kind", "nnd", "--degree", str(DEGREE)],
        }[self.kind]
        return [self.program, "build", points, index, "--workers", str(threads), *given]

    def ask(self, folder, points, index, queries, width):
        words = [self.program, "query", points, index, queries, "--search", str(width), "--k", str(K), "--workers", "1"]
        spent, _, _, printed = min((measured(words) for _ in range(2)), key=lambda told: told[0])
        words[4] = os.path.join(folder, "one")
        least = min(measured(words)[0] for _ in range(2))
        ids = [[int(near.split(b":")[0]) for near in line.split()[1:]] for line in printed.splitlines()]
        return max(spent - least, 1e-6), numpy.array(ids)


class Peer:
    def __init__(self, program, name):
        self.program, self.name = program, name

    def build_words(self, points, index, threads):
        return [self.program, "build", points, index, str(DEGREE // 2), str(BEAM), str(threads)]

    def ask(self, folder, points, index, queries, width):
        answers = os.path.join(folder, "ids")
        words = [self.program, "query", points, index, queries, str(K), str(width), answers]
        spent = min(float(measured(words)[3]) for _ in range(2))
        return spent, numpy.fromfile(answers, "<u4").reshape(-1, K)


def compiled(source, folder, *libraries):
    program = os.path.join(folder, source[:-4])
    words = ["g++", "-O3", "-march=native", "-fopenmp", "-pthread", "-w", "-o", program, os.path.join(HERE, source)]
    subprocess.run([*words, *libraries], check=True)
    return program


def same_bytes(one, other):
    with open(one, "rb") as a, open(other, "rb") as b:
        return a.read() == b.read()


def builds_of(builder, folder, points):
    """Least processor and wall seconds for each number of threads, peak memory, and whether four runs gave one file."""
    told, indexes, peak = {}, [], 0
    for turn in range(2):
        for threads in THREADS:
            index = os.path.join(folder, f"{turn}{threads}.index")
            spent, wall, memory, _ = measured(builder.build_words(points, index, threads))
            least = told.get(threads, (spent, wall))
            told[threads] = min(least[0], spent), min(least[1], wall)
            peak = max(peak, memory)
            indexes.append(index)
    same = all(same_bytes(indexes[0], index) for index in indexes[1:])
    return told, peak, same, indexes[0]


def rate_at(curve, wanted):
    """Queries a second at the least width whose recall is the wanted one."""
    rates = [rate for _, recall, rate in curve if recall >= wanted]
    return max(rates) if rates else None


def bench_set(kind, count, dim, builders, folder):
    points, queries = make_set(kind, count, dim)
    names = {name: os.path.join(folder, name) for name in ("points", "queries", "one")}
    write_u8bin(names["points"], points)
    write_u8bin(names["queries"], queries)
    write_u8bin(names["one"], queries[:1])
    reach = exact_reach(points, queries)
    rows = []
    for builder in builders:
        told, peak, same, index = builds_of(builder, folder, names["points"])
        curve = []
        for width in WIDTHS:
            spent, ids = builder.ask(folder, names["points"], index, names["queries"], width)
            curve.append((width, recall_of(points, queries, reach, ids), len(queries) / spent))
        rows.append((builder.name, told, peak, same, os.path.getsize(index) / 1e6, curve))
        print(kind, count, dim, builder.name, told, f"{peak:.0f} MB", same, file=sys.stderr, flush=True)
    return rows


def plot(title, rows, name):
    import matplotlib

    matplotlib.use("svg")
    matplotlib.rcParams["svg.hashsalt"] = "annbuild"
    from matplotlib import pyplot

    figure, axes = pyplot.subplots(figsize=(6.4, 4.2))
    for builder, _, _, _, _, curve in rows:
        axes.plot([c[1] for c in curve], [c[2] for c in curve], marker="o", markersize=3, label=builder)
    axes.set_yscale("log")
    axes.set_xlabel(f"recall of the {K} nearest")
    axes.set_ylabel("queries a second, one thread")
    axes.set_title(title)
    axes.grid(True, which="both", alpha=0.3)
    axes.legend()
    figure.tight_layout()
    figure.savefig(name, metadata={"Date": None, "Creator": None})
    pyplot.close(figure)


def shown(rate):
    return f"{rate:,.0f}" if rate else "–"


def table(rows):
    lines = [
        "| | build, CPU s (1 thread) | wall s, 1 / 4 threads | peak MB | index MB | bytes alike | queries/s at recall .95 / .99 |",
        "|---|---|---|---|---|---|---|",
    ]
    for name, told, peak, same, size, curve in rows:
        lines.append(
            f"| {name} | {told[1][0]:.2f} | {told[1][1]:.2f} / {told[4][1]:.2f} | {peak:.0f} | {size:.1f} "
            f"| {'yes' if same else 'no'} | {shown(rate_at(curve, 0.95))} / {shown(rate_at(curve, 0.99))} |"
        )
    return lines


def processor():
    with open("/proc/cpuinfo") as file:
        for line in file:
            if line.startswith("model name"):
                return line.split(":")[1].strip()
    return platform.machine()


def main():
    given = argparse.ArgumentParser()
    given.add_argument("program")
    given.add_argument("--quick", action="store_true", help="2,000 points only, to see that it runs")
    given.add_argument("--out", default=DOCS, help="where BENCHMARKS.md and the plots go (default: docs)")
    given = given.parse_args()
    sets = [(2_000, 16)] if given.quick else SETS
    load = os.getloadavg()[0]
    with open(os.path.join(HERE, "head.md")) as file:
        text = [file.read().rstrip(), ""]
    with open(os.path.join(HERE, "tail.md")) as file:
        last = file.read()
    text += [
        f"Measured on {datetime.date.today()}: {processor()}, {os.cpu_count()} processors; a load of {load:.1f} from other work when it began.",
        "",
    ]
    plots = os.path.join(given.out, "benchmarks")
    os.makedirs(plots, exist_ok=True)
    with tempfile.TemporaryDirectory() as folder:
        builders = [Annbuild(os.path.abspath(given.program), kind) for kind in ("vamana", "hnsw", "nnd")]
        builders.append(Peer(compiled("peer_hnswlib.cpp", folder), "hnswlib u8"))
        builders.append(Peer(compiled("peer_faiss.cpp", folder, "-lfaiss", "-lopenblas"), "FAISS HNSW (floats)"))
        for count, dim in sets:
            for kind in ("clustered", "uniform"):
                rows = bench_set(kind, count, dim, builders, folder)
                title = f"{count:,} × {dim}, {kind}"
                name = f"{kind}-{count}x{dim}.svg"
                plot(title, rows, os.path.join(plots, name))
                text += [f"## {title}", "", *table(rows), "", f"![recall against queries a second](benchmarks/{name})", ""]
                with open(os.path.join(given.out, "BENCHMARKS.md"), "w") as file:
                    file.write("\n".join([*text, last]))


if __name__ == "__main__":
    main()
