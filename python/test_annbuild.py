"""Tests of annbuild.py: python3 -m unittest discover python."""

import hashlib
import os
import tempfile
import unittest

import annbuild
import numpy as np

FOUR = os.path.join(os.path.dirname(os.path.abspath(__file__)), os.pardir, "examples")


class Files(unittest.TestCase):
    def setUp(self):
        self.folder = tempfile.TemporaryDirectory()
        self.addCleanup(self.folder.cleanup)

    def name(self, name):
        return os.path.join(self.folder.name, name)

    def written(self, name, data):
        with open(self.name(name), "wb") as file:
            file.write(data)
        return self.name(name)

    def refused(self, message, call, *args):
        with self.assertRaises(ValueError) as raised:
            call(*args)
        self.assertTrue(str(raised.exception).endswith(message), str(raised.exception))

    def refused_with(self, data, place, word, message):
        """An index file with a word replaced is refused with this message."""
        data[place : place + 4] = word.to_bytes(4, "little")
        self.refused(message, annbuild.load_index, self.written("broken", bytes(data)))


class Points(Files):
    def test_points_are_written_as_a_header_and_bytes(self):
        annbuild.write_points(self.name("two"), [[1, 2, 3], [4, 5, 255]])
        with open(self.name("two"), "rb") as file:
            self.assertEqual(file.read().hex(), "0200000003000000" + "0102030405ff")
        self.assertEqual(annbuild.read_points(self.name("two")).tolist(), [[1, 2, 3], [4, 5, 255]])

    def test_numbers_that_are_no_bytes_are_refused(self):
        for points in ([[256]], [[-1]], [[0.5]], [1, 2], np.empty((0, 3), np.uint8)):
            with self.assertRaises(ValueError):
                annbuild.write_points(self.name("none"), points)
        self.assertFalse(os.path.exists(self.name("none")))

    def test_signed_points_are_written_and_read_as_they_are(self):
        annbuild.write_points(self.name("two"), [[-128, -20], [0, 127]], type="i8")
        with open(self.name("two"), "rb") as file:
            self.assertEqual(file.read().hex(), "0200000002000000" + "80ec007f")
        self.assertEqual(annbuild.read_points(self.name("two"), type="i8").tolist(), [[-128, -20], [0, 127]])
        self.assertEqual(annbuild.read_points(self.name("two")).tolist(), [[128, 236], [0, 127]])
        for points, type in (([[128]], "i8"), ([[-129]], "i8"), ([[1]], "i16")):
            with self.assertRaises(ValueError):
                annbuild.write_points(self.name("none"), points, type=type)

    def test_broken_files_are_told_with_place_and_rule(self):
        for data, told in (
            ("02000000030000", "at byte 7: short header"),
            ("0000000003000000", "at byte 0: zero count"),
            ("0200000000000000", "at byte 4: zero dim"),
            ("02000000030000000102", "at byte 10: short body"),
            ("01000000010000000102", "at byte 9: trailing"),
        ):
            path = self.written("broken", bytes.fromhex(data))
            self.refused(told, annbuild.read_points, path)

    def test_bvecs_fvecs_and_npy_are_read(self):
        path = self.written("two.bvecs", bytes.fromhex("020000000102" + "0200000003ff"))
        self.assertEqual(annbuild.load_vectors(path).tolist(), [[1, 2], [3, 255]])
        path = self.written("one.fvecs", bytes.fromhex("02000000" + "0000c03f" + "000000c0"))
        self.assertEqual(annbuild.load_vectors(path).tolist(), [[1.5, -2.0]])
        np.save(self.name("three.npy"), np.array([[1.0], [2.0], [4.0]]))
        self.assertEqual(annbuild.load_vectors(self.name("three.npy")).tolist(), [[1.0], [2.0], [4.0]])

    def test_broken_vectors_are_told(self):
        path = self.written("cut.bvecs", bytes.fromhex("0200000001"))
        self.refused("at byte 5: short body", annbuild.load_vectors, path)
        path = self.written("mixed.bvecs", bytes.fromhex("0100000007" + "0200000007"))
        self.refused("at byte 5: dim", annbuild.load_vectors, path)
        path = self.written("other.txt", b"")
        self.refused(".npy", annbuild.load_vectors, path)

    def test_floats_are_scaled_and_the_scale_comes_back(self):
        points, scale = annbuild.to_bytes([[0.0, 0.5], [1.0, 0.25]])
        self.assertEqual(points.tolist(), [[0, 128], [255, 64]])
        self.assertEqual((scale.low, scale.step), (0.0, 1.0 / 255))
        queries, same = annbuild.to_bytes([[2.0, -1.0]], scale)
        self.assertEqual(queries.tolist(), [[255, 0]])
        self.assertEqual(same, scale)


class Indexes(Files):
    def four(self):
        with open(os.path.join(FOUR, "four.ann"), "rb") as file:
            return bytearray(file.read())

    def test_an_index_is_loaded_as_offsets_and_ids(self):
        index = annbuild.load_index(os.path.join(FOUR, "four.ann"))
        self.assertEqual((index.kind, index.count, index.dim, index.degree, index.start), ("vamana", 4, 1, 64, 0))
        (layer,) = index.layers
        self.assertEqual(layer.ids.tolist(), [0, 1, 2, 3])
        self.assertEqual(layer.offsets.tolist(), [0, 1, 3, 5, 6])
        self.assertEqual(layer.neighbours.tolist(), [1, 0, 2, 1, 3, 2])
        self.assertEqual(layer.row(2).tolist(), [1, 3])

    def test_layers_are_loaded_from_layer_0_on(self):
        words = "50414e4e 01000000 02000000 04000000 01000000 01000000 01000000 02000000"
        words += "01000000 01000000 02000000 00000000 02000000 01000000 01000000 01000000 01000000"
        words += "01000000 01000000 00000000"
        index = annbuild.load_index(self.written("two", bytes.fromhex(words.replace(" ", ""))))
        self.assertEqual(index.kind, "hnsw")
        self.assertEqual([layer.ids.tolist() for layer in index.layers], [[0, 1, 2, 3], [1]])
        self.assertEqual(index.layers[1].neighbours.tolist(), [])

    def test_a_broken_index_is_told_with_place_and_rule(self):
        for place, word, told in (
            (0, 0, "at byte 0: magic"),
            (4, 9, "at byte 4: version"),
            (8, 4, "at byte 8: kind"),
            (12, 0, "at byte 12: zero count"),
            (24, 4, "at byte 24: start"),
            (28, 2, "at byte 28: layers"),
            (32, 65, "at byte 32: degree"),
            (36, 4, "at byte 36: id range"),
            (36, 0, "at byte 36: self edge"),
            (48, 0, "at byte 48: double edge"),
        ):
            self.refused_with(self.four(), place, word, told)
        whole = bytes(self.four())
        self.refused(f"at byte {len(whole) - 1}: short", annbuild.load_index, self.written("cut", whole[:-1]))
        self.refused(f"at byte {len(whole)}: trailing", annbuild.load_index, self.written("long", whole + b"\0"))


# The index of the four points 0, 10, 20 and 30 with its stamp: degree 2, beam 4, alpha 1/1, a cap of 4.
STAMPED = "50414e4e 02000000 01000000 04000000 01000000 02000000 00000000 01000000"
STAMPED += "01000000 01000000 01000000 04000000 01000000 01000000 04000000" + " 00000000" * 6 + "01000000" + " 00000000" * 4
STAMPED += "DIGEST"
STAMPED += "01000000 01000000 02000000 00000000 02000000 01000000 01000000 01000000 01000000"


class Stamps(Files):
    def stamped(self):
        digest = hashlib.sha256(bytes.fromhex("0400000001000000" + "000a141e")).hexdigest()
        return bytearray.fromhex(STAMPED.replace("DIGEST", digest))

    def test_a_stamp_is_read_and_says_how_to_build_again(self):
        self.assertEqual(len(self.stamped()), 172)
        index = annbuild.load_index(self.written("stamped", bytes(self.stamped())))
        stamp = index.stamp
        self.assertEqual((stamp.element, stamp.order, stamp.start, stamp.beam), (1, 1, 1, 4))
        self.assertEqual((stamp.num, stamp.den, stamp.cap, stamp.passes, stamp.seed, stamp.floor), (1, 1, 4, 1, 0, 0))
        annbuild.write_points(self.name("data"), [[0], [10], [20], [30]])
        self.assertEqual(stamp.digest, annbuild.digest(self.name("data")))
        self.assertEqual(index.layers[0].neighbours.tolist(), [1, 0, 2, 1, 1])
        self.assertEqual(
            index.options(),
            {
                "kind": "vamana", "degree": 2, "seed": 0, "format": 2, "type": "u8", "order": "file",
                "start": "first", "alpha": "1/1", "beam": 4, "cap": 4, "passes": 1,
            },
        )
        plain = annbuild.load_index(os.path.join(FOUR, "four.ann"))
        self.assertIsNone(plain.stamp)
        with self.assertRaises(ValueError):
            plain.options()

    def test_a_broken_stamp_is_told_with_place_and_rule(self):
        for place, word, told in (
            (32, 3, "at byte 32: stamp"),
            (36, 0, "at byte 36: stamp"),
            (52, 2, "at byte 52: stamp"),
            (60, 1, "at byte 60: stamp"),
            (84, 3, "at byte 84: stamp"),
            (96, 1, "at byte 96: stamp"),
            (136, 3, "at byte 136: degree"),
        ):
            self.refused_with(self.stamped(), place, word, told)
        for size in (32, 87, 95, 103, 135, 136, 171):
            cut = self.written("cut", bytes(self.stamped()[:size]))
            self.refused(f"at byte {size}: short", annbuild.load_index, cut)


class Program(Files):
    def test_an_index_is_built_and_answers(self):
        annbuild.write_points(self.name("data"), np.array([[0], [10], [20], [30]]))
        told = annbuild.build(self.name("data"), self.name("index"), order="file", start="first")
        self.assertEqual(told["kind"], "vamana")
        self.assertEqual((told["count"], told["edges"]), (4, 6))
        with open(self.name("index"), "rb") as made, open(os.path.join(FOUR, "four.ann"), "rb") as known:
            self.assertEqual(made.read(), known.read())
        annbuild.write_points(self.name("asked"), np.array([[12], [30]]))
        ids, distances = annbuild.query(self.name("data"), self.name("index"), self.name("asked"), k=2)
        self.assertEqual(ids.tolist(), [[1, 2], [3, 2]])
        self.assertEqual(distances.tolist(), [[4, 64], [0, 100]])

    def test_an_index_is_built_again_from_its_stamp(self):
        points = (np.arange(600, dtype=np.int64) * 7919 % 256 - 128).reshape(200, 3)
        annbuild.write_points(self.name("data"), points, type="i8")
        for kind in ("vamana", "hnsw", "nnd"):
            annbuild.build(self.name("data"), self.name("index"), kind=kind, seed=5, degree=8, format=2, type="i8")
            options = annbuild.load_index(self.name("index")).options()
            annbuild.build(self.name("data"), self.name("again"), workers=1, pool="serial", **options)
            with open(self.name("index"), "rb") as first, open(self.name("again"), "rb") as second:
                self.assertEqual(first.read(), second.read())

    def test_a_refusal_tells_status_and_line(self):
        path = self.written("short", b"1234")
        with self.assertRaises(RuntimeError) as raised:
            annbuild.build(path, self.name("index"))
        self.assertEqual(str(raised.exception), "status 5: annbuild: data is malformed at byte 4: short header")

    def test_places_without_an_answer_are_minus_one(self):
        ids, distances = annbuild.parse_answers("0 1:4 2:64\n1\n2 3:0\n")
        self.assertEqual(ids.tolist(), [[1, 2], [-1, -1], [3, -1]])
        self.assertEqual(distances.tolist(), [[4, 64], [-1, -1], [0, -1]])


if __name__ == "__main__":
    unittest.main()
