"""annbuild from Python: arrays in, arrays out.

Points and queries are arrays of bytes, signed or not, a row for each point. `write_points` and `read_points` go to and
from the files that the program reads, `load_vectors` reads bvecs, fvecs and npy, `to_bytes` scales floats, `build` and
`query` run the program, and `load_index` gives the rows of an index as offsets and ids, layer by layer, and its stamp.
`digest` is what a stamp keeps of a points file.

A file that isn't well formed raises ValueError with its name, the byte and the rule. Where the program refuses, `build`
and `query` raise RuntimeError with its status and its line.
"""

import hashlib
import os
import subprocess
from dataclasses import dataclass

import numpy as np

PROGRAM = os.path.join(os.path.dirname(os.path.abspath(__file__)), os.pardir, "run")
KINDS = {1: "vamana", 2: "hnsw", 3: "nnd"}
ELEMENTS = {"u8": np.uint8, "i8": np.int8}


def _malformed(path, place, rule):
    return ValueError(f"{path} is malformed at byte {place}: {rule}")


# Points


def _element(type):
    if type not in ELEMENTS:
        raise ValueError(f"the type is {type!r}, not 'u8' or 'i8'")
    return np.iinfo(ELEMENTS[type])


def write_points(path, points, type="u8"):
    """Writes an array of whole numbers, a row for each point, as a file of unsigned (u8) or signed (i8) bytes."""
    element = _element(type)
    points = np.asarray(points)
    if points.ndim != 2 or points.shape[0] == 0 or points.shape[1] == 0:
        raise ValueError(f"points have the shape {points.shape}, not (count, dim)")
    if points.dtype != element.dtype:
        if points.dtype.kind not in "iu" or points.min() < element.min or points.max() > element.max:
            raise ValueError(
                f"points aren't whole numbers from {element.min} to {element.max}: scale them with to_bytes"
            )
        points = points.astype(element.dtype)
    with open(path, "wb") as file:
        file.write(np.array(points.shape, dtype="<u4").tobytes())
        file.write(np.ascontiguousarray(points).tobytes())


def read_points(path, type="u8"):
    """The points of a file of unsigned (u8) or signed (i8) bytes, an array with a row for each."""
    element = _element(type)
    data = np.fromfile(path, dtype=np.uint8)
    if data.size < 8:
        raise _malformed(path, data.size, "short header")
    count, dim = (int(word) for word in data[:8].view("<u4"))
    if count == 0:
        raise _malformed(path, 0, "zero count")
    if dim == 0:
        raise _malformed(path, 4, "zero dim")
    if data.size < 8 + count * dim:
        raise _malformed(path, data.size, "short body")
    if data.size > 8 + count * dim:
        raise _malformed(path, 8 + count * dim, "trailing")
    return data[8:].view(element.dtype).reshape(count, dim)


def digest(path):
    """The SHA-256 of a file, as an index's stamp keeps it of the points that it was built from."""
    with open(path, "rb") as file:
        return hashlib.sha256(file.read()).digest()


def load_vectors(path):
    """The vectors of a bvecs, fvecs or npy file, a row for each; which one it is goes by the end of the name."""
    end = os.path.splitext(path)[1]
    if end == ".npy":
        vectors = np.load(path, allow_pickle=False)
        if vectors.ndim != 2:
            raise ValueError(f"{path} has the shape {vectors.shape}, not (count, dim)")
        return vectors
    if end not in (".bvecs", ".fvecs"):
        raise ValueError(f"{path}: the name ends with none of .bvecs, .fvecs and .npy")
    kind = np.dtype(np.uint8) if end == ".bvecs" else np.dtype("<f4")
    data = np.fromfile(path, dtype=np.uint8)
    if data.size < 4:
        raise _malformed(path, data.size, "short header")
    dim = int(data[:4].view("<u4")[0])
    if dim == 0:
        raise _malformed(path, 0, "zero dim")
    size = 4 + dim * kind.itemsize
    if data.size % size != 0:
        raise _malformed(path, data.size, "short body")
    rows = data.reshape(-1, size)
    dims = np.ascontiguousarray(rows[:, :4]).view("<u4").ravel()
    if (dims != dim).any():
        raise _malformed(path, int(np.argmax(dims != dim)) * size, "dim")
    return np.ascontiguousarray(rows[:, 4:]).view(kind)


@dataclass(frozen=True)
class Scale:
    """How numbers became bytes: the byte is `(number - low) / step`, rounded and kept within 0 to 255."""

    low: float
    step: float


def to_bytes(vectors, scale=None):
    """Numbers as bytes, and their scale. Hand the scale of the points in again for the queries.

    The least number becomes 0 and the greatest 255. All columns have one scale, so distances keep their order but for
    rounding: a squared distance of the bytes, times `step * step`, is near to that of the numbers.
    """
    vectors = np.asarray(vectors, dtype=np.float64)
    if vectors.size == 0 or not np.isfinite(vectors).all():
        raise ValueError("vectors are empty or not finite")
    if scale is None:
        low, high = float(vectors.min()), float(vectors.max())
        scale = Scale(low, (high - low) / 255 if high > low else 1.0)
    scaled = np.rint((vectors - scale.low) / scale.step)
    return np.clip(scaled, 0, 255).astype(np.uint8), scale


# The index


@dataclass(frozen=True)
class Layer:
    """The rows of a layer: the neighbours of `ids[i]` are `neighbours[offsets[i]:offsets[i + 1]]`."""

    ids: np.ndarray
    offsets: np.ndarray
    neighbours: np.ndarray

    def row(self, i):
        """The neighbours of `ids[i]`."""
        return self.neighbours[self.offsets[i] : self.offsets[i + 1]]


@dataclass(frozen=True)
class Stamp:
    """What an index was built from: the settings, 0 where they aren't of its kind, and the digest of its points' file.

    `element` is 1 for u8 and 2 for i8, `order` 1 for the file's and 2 for a seeded one, `start` 1 for the first point and
    2 for the medoid; alpha is `num / den`, and `cap` the greatest batch that was used.
    """

    element: int
    order: int
    start: int
    beam: int
    num: int
    den: int
    cap: int
    bits: int
    max_level: int
    list: int
    trees: int
    leaf: int
    rounds: int
    passes: int
    seed: int
    floor: int
    digest: bytes


@dataclass(frozen=True)
class Index:
    """An index file: its kind, its numbers, its layers from layer 0 on, and its stamp, None in version 1."""

    kind: str
    count: int
    dim: int
    degree: int
    start: int
    layers: list
    stamp: Stamp = None

    def options(self):
        """The options with which `build` gives this index again, of the points whose digest the stamp keeps."""
        stamp = self.stamp
        if stamp is None:
            raise ValueError("an index of version 1 doesn't say what it was built from")
        options = {"kind": self.kind, "degree": self.degree, "seed": stamp.seed, "format": 2}
        options["type"] = {1: "u8", 2: "i8"}[stamp.element]
        if stamp.order:
            options["order"] = {1: "file", 2: "seeded"}[stamp.order]
        if stamp.start:
            options["start"] = {1: "first", 2: "medoid"}[stamp.start]
        if stamp.num:
            options["alpha"] = f"{stamp.num}/{stamp.den}"
        for name in _KIND_OPTIONS[self.kind]:
            options[name] = getattr(stamp, name)
        return options


_KIND_OPTIONS = {
    "vamana": ("beam", "cap", "passes"),
    "hnsw": ("beam", "cap", "bits", "max_level"),
    "nnd": ("list", "trees", "leaf", "rounds", "floor"),
}


def _stamp_ranges(kind, num):
    """The least and the greatest value of each word of a stamp, in the order of the file."""
    vamana, hnsw, nnd = kind == 1, kind == 2, kind == 3
    flat, batches = vamana or nnd, vamana or hnsw
    return (
        (1, 2),
        (1, 2) if batches else (0, 0),
        (1, 2) if flat else (0, 0),
        (1, 1024) if batches else (0, 0),
        (1, 1000) if flat else (0, 0),
        (1, num) if flat else (0, 0),
        (1, 4194304) if batches else (0, 0),
        (1, 8) if hnsw else (0, 0),
        (0, 15) if hnsw else (0, 0),
        (1, 128) if nnd else (0, 0),
        (1, 64) if nnd else (0, 0),
        (2, 1024) if nnd else (0, 0),
        (0, 64) if nnd else (0, 0),
        (1, 2) if vamana else (0, 0),
    )


def _read_stamp(path, kind, data):
    """The stamp of a version 2 file, of which `data` are the first bytes."""
    size = len(data)
    number = lambda at, many: int.from_bytes(data[at : at + many], "little")
    for field, (least, greatest) in enumerate(_stamp_ranges(kind, number(48, 4))):
        at = 32 + 4 * field
        if size < at + 4:
            raise _malformed(path, size, "short")
        if not least <= number(at, 4) <= greatest:
            raise _malformed(path, at, "stamp")
    for at, many in ((88, 8), (96, 8), (104, 32)):
        if size < at + many:
            raise _malformed(path, size, "short")
        if at == 96 and kind != 3 and number(96, 8) != 0:
            raise _malformed(path, 96, "stamp")
    words = [number(at, 4) for at in range(32, 88, 4)]
    return Stamp(*words, number(88, 8), number(96, 8), bytes(data[104:136]))


def load_index(path):
    """The index of a file. The checks are those of the program's `check`, in its order, but for its limits."""
    size = os.path.getsize(path)
    words = np.fromfile(path, dtype="<u4")
    if size < 32:
        raise _malformed(path, size, "short header")
    magic, version, kind, count, dim, degree, start, layers = (int(word) for word in words[:8])
    most_layers = 16 if kind == 2 else 1
    for place, rule, holds in (
        (0, "magic", magic == 0x4E4E4150),
        (4, "version", version in (1, 2)),
        (8, "kind", kind in KINDS),
        (12, "zero count", count > 0),
        (16, "zero dim", dim > 0),
        (20, "degree", degree > 0),
        (24, "start", start < count),
        (28, "layers", 1 <= layers <= most_layers),
    ):
        if not holds:
            raise _malformed(path, place, rule)
    stamp = None
    if version == 2:
        with open(path, "rb") as file:
            stamp = _read_stamp(path, kind, file.read(136))
    reader = _Words(path, words, size, 8 if stamp is None else 34)
    held = np.arange(count, dtype=np.uint32)
    bound = 2 * degree if kind == 2 else degree
    found = [reader.rows(held, held, bound, count)]
    for _ in range(1, layers):
        ids = reader.ids(found[-1].ids, start)
        found.append(reader.rows(ids, ids, degree, count))
    if reader.at * 4 < size:
        raise _malformed(path, reader.at * 4, "trailing")
    return Index(KINDS[kind], count, dim, degree, start, found, stamp)


class _Words:
    """The words of an index file from its layers on, taken one after another."""

    def __init__(self, path, words, size, at):
        self.path, self.words, self.size, self.at = path, words, size, at

    def take(self, many):
        if self.at + many > self.words.size:
            return None
        part = self.words[self.at : self.at + many]
        self.at += many
        return part

    def short(self):
        return _malformed(self.path, self.size, "short")

    def ids(self, below, start):
        """The ids of a further layer."""
        first = self.at
        part = self.take(1)
        if part is None:
            raise self.short()
        many = int(part[0])
        if many == 0 or many > below.size:
            raise _malformed(self.path, first * 4, "layer ids")
        ids = self.words[self.at : self.at + many]
        wrong = ~np.isin(ids, below)
        wrong[1:] |= ids[1:] <= ids[:-1]
        if wrong.any():
            raise _malformed(self.path, (self.at + int(np.argmax(wrong))) * 4, "layer ids")
        if self.take(many) is None:
            raise self.short()
        if start not in ids:
            raise _malformed(self.path, first * 4, "layer ids")
        return ids

    def rows(self, ids, held, bound, count):
        """The rows of a layer, one for each id."""
        inside = np.zeros(count, dtype=bool)
        inside[held] = True
        offsets = np.zeros(ids.size + 1, dtype=np.int64)
        starts = np.empty(ids.size, dtype=np.int64)
        for i in range(ids.size):
            many = self.take(1)
            if many is None:
                raise self.short()
            if many[0] > bound:
                raise _malformed(self.path, (self.at - 1) * 4, "degree")
            starts[i] = self.at
            self.row(int(many[0]), int(ids[i]), inside)
            offsets[i + 1] = offsets[i] + int(many[0])
        places = np.repeat(starts - offsets[:-1], np.diff(offsets)) + np.arange(offsets[-1])
        return Layer(ids.astype(np.uint32), offsets, self.words[places].astype(np.uint32))

    def row(self, many, own, inside):
        """Checks a row, id after id, and passes over it."""
        first = self.at
        seen = set()
        for place, id in enumerate(self.words[first : first + many].tolist(), first):
            if id >= inside.size or not inside[id]:
                raise _malformed(self.path, place * 4, "id range")
            if id == own:
                raise _malformed(self.path, place * 4, "self edge")
            if id in seen:
                raise _malformed(self.path, place * 4, "double edge")
            seen.add(id)
        if self.take(many) is None:
            raise self.short()


# The program


def run(*words, program=PROGRAM):
    """Runs the program on some words, and returns what it printed."""
    done = subprocess.run([program, *map(str, words)], capture_output=True, text=True)
    if done.returncode != 0:
        raise RuntimeError(f"status {done.returncode}: {done.stderr.strip()}")
    return done.stdout


def _options(options):
    return [f"--{name.replace('_', '-')}={value}" for name, value in options.items()]


def build(data, index, program=PROGRAM, **options):
    """Builds the index file of a points file, and returns the numbers of the line that the program printed.

    Options are those of the program, as `degree=32` or `max_level=4`.
    """
    words = run("build", data, index, *_options(options), program=program).split()
    told = dict(zip(words[2::2], map(int, words[3::2])))
    return {"kind": words[1], **told}


def query(data, index, queries, program=PROGRAM, **options):
    """The ids that an index answers with, and their squared distances: two arrays with a row for each query.

    A query with fewer answers than another has -1 in the places that are left.
    """
    return parse_answers(run("query", data, index, queries, *_options(options), program=program))


def parse_answers(text):
    """The ids and squared distances of printed answers, as `query` returns them."""
    rows = [[pair.split(":") for pair in line.split(" ")[1:]] for line in text.splitlines()]
    most = max((len(row) for row in rows), default=0)
    ids = np.full((len(rows), most), -1, dtype=np.int64)
    distances = np.full((len(rows), most), -1, dtype=np.int64)
    for i, row in enumerate(rows):
        for j, (id, distance) in enumerate(row):
            ids[i, j], distances[i, j] = int(id), int(distance)
    return ids, distances
