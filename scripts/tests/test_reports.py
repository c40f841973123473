"""What `read` says of reports in each layout, and how texts are cut into items."""

import unittest

from common import palp

TRIANGLE = """3 1 1 1 M:10 3 N:4 3
2 10 Points
-1 -1 -1 -1 0 0 0 1 1 2
-1 0 1 2 -1 0 1 -1 0 -1
2 3 Vertices
-1 -1 2
-1 2 -1
3 2 Vertices of P-dual
-1 -1
0 1
1 0
Pairing 3 3
3 0 0
0 3 0
0 0 3
2 4 Points of P-dual
-1 0 0 1
-1 0 1 0
Faces: 3 3
Incidence 3 3
011
101
110
"""

QUARTIC = """4 1 1 1 1 M:35 4 N:5 4 codim=2
P:1 V:0 0 0 1 H:1 [0]
P:2 V:0 0 1 0 H:1 [0]
#nef:2
"""

QUINTIC = """5 1 1 1 1 1 M:126 5 N:6 5 codim=1
P:1 V:0 0 0 0 0 H:1,101 [-200]
h0: 1 0 0 1
h1: 0 1 101 0
h2: 0 101 1 0
h3: 1 0 0 1
#nef:1
"""


class Lines(unittest.TestCase):
    def test_general_lines(self):
        report = "M:11 3 F:3\n2 1 1 0 0 2 0 0 1 1 M:9 4 N:9 4\n4 1 1 1 1 M:35 4 N:5 4 Pic:1 Cor:0\n"
        report += "5 1 1 1 1 1 M:126 5 N:6 5 H:1,101 [-200]\n6 1 1 1 1 1 1 M:462 6 N:7 6 H:1,0,426 [2610]\nM:8 4 N:7 4 Pic:-1 Cor:2\n"
        plain, square, quartic, quintic, sextic, last = palp.read(report)
        self.assertEqual((plain.points, plain.vertices, plain.facets, plain.reflexive, plain.weights), (11, 3, 3, None, None))
        self.assertEqual((square.weights, square.dual_points, square.facets, square.reflexive), ([2, 1, 1, 0, 0, 2, 0, 0, 1, 1], 9, 4, True))
        self.assertEqual((quartic.pic, quartic.cor, quartic.h11), (1, 0, None))
        self.assertEqual((quintic.h11, quintic.h21, quintic.h31, quintic.euler), (1, 101, None, -200))
        self.assertEqual((sextic.h11, sextic.h21, sextic.h31, sextic.euler, sextic.hodge), (1, 0, 426, 2610, [1, 0, 426]))
        self.assertEqual((last.pic, last.item), (-1, 6))

    def test_reports_of_weight_systems(self):
        self.assertEqual([it.weights for it in palp.read("3 1 1 1\n4 1 1 2\n6 1 2 3\n#ref:3\n")], [[3, 1, 1, 1], [4, 1, 1, 2], [6, 1, 2, 3]])
        self.assertEqual(palp.read("#ip:0\n"), [])
        (sums,) = palp.read("systems:3 reflexive:3 M:26 N:17\n")
        self.assertEqual((sums.systems, sums.reflexive_systems, sums.points, sums.dual_points), (3, 3, 26, 17))

    def test_nothing_is_a_report(self):
        self.assertEqual(palp.read(""), [])
        self.assertEqual(palp.read(b""), [])


class Blocks(unittest.TestCase):
    def test_all_blocks_of_an_item(self):
        first, second = palp.read(TRIANGLE + TRIANGLE)
        self.assertEqual(second.item, 2)
        self.assertEqual((first.points, first.dual_points), (10, 4))
        self.assertEqual(first.blocks["points"][:2] + first.blocks["points"][-1:], [[-1, -1], [-1, 0], [2, -1]])
        self.assertEqual(first.blocks["vertices"], [[-1, -1], [-1, 2], [2, -1]])
        self.assertEqual(first.blocks["normals"], [[-1, -1], [0, 1], [1, 0]])
        self.assertEqual(first.blocks["pairing"], [[3, 0, 0], [0, 3, 0], [0, 0, 3]])
        self.assertEqual(first.blocks["dual points"], [[-1, -1], [0, 0], [0, 1], [1, 0]])
        self.assertEqual((first.blocks["faces"], first.blocks["incidence"]), ([3, 3], [[0, 1, 1], [1, 0, 1], [1, 1, 0]]))

    def test_items_without_a_general_line(self):
        vertices = "2 3 Vertices\n-1 -1 2\n-1 2 -1\n"
        normals = "3 2 Vertices of P-dual\n-1 -1\n0 1\n1 0\n"
        equations = "Equations 3 2\n-3 -4 5\n0 1 1\n1 0 1\n"
        self.assertEqual([list(it.blocks) for it in palp.read(vertices + normals + vertices + equations)], [["vertices", "normals"], ["vertices", "equations"]])
        self.assertEqual([it.reflexive for it in palp.read(vertices + normals + vertices + equations + vertices)], [True, False, None])
        self.assertEqual([it.blocks for it in palp.read(normals + equations)][1], {"equations": [[-3, -4, 5], [0, 1, 1], [1, 0, 1]]})

    def test_partitions(self):
        quartic, quintic, plain = palp.read(QUARTIC + QUINTIC + "M:11 3 F:3\n")
        self.assertEqual([it.parts for it in quartic.partitions], [[0, 0, 0, 1], [0, 0, 1, 0]])
        self.assertEqual(palp.hodge_names(quartic, quartic.partitions[0]), ["h10"])
        self.assertEqual((quintic.codim, quintic.partitions[0].hodge, quintic.partitions[0].euler), (1, [1, 101], -200))
        self.assertEqual(quintic.partitions[0].diamond[1], [0, 1, 101, 0])
        self.assertEqual(palp.hodge_names(quintic, quintic.partitions[0]), ["h11", "h21"])
        self.assertEqual((plain.partitions, plain.facets), ([], 3))

    def test_dimension_of_an_intersection(self):
        systems = palp.Record(1, weights=[2, 1, 1, 0, 0, 2, 0, 0, 1, 1], codim=1)
        self.assertEqual(palp.width_and_rank(systems.weights), (4, 2))
        self.assertEqual(palp.hodge_names(systems, palp.Partition(1, [0, 0, 0, 0], [1], 0)), ["h10"])
        self.assertEqual(palp.hodge_names(palp.Record(1, codim=1), palp.Partition(1, [0, 0], [1], 0)), [])
        self.assertEqual(palp.width_and_rank([2, 1, 1, 2, 1, 1]), (2, 1))


class Faults(unittest.TestCase):
    def test_lines_that_no_report_has(self):
        for report, line in [
            ("M:11 3 F:3\nhello\n", "line 2"),
            ("M:11 3\n", "line 1"),
            ("2 3 Vertices\n-1 -1 2\n", "line 2: the report ends"),
            ("2 3 Vertices\n-1 -1\n-1 2 -1\n", "line 2: not a row of 3"),
            ("Incidence 1 3\n012\n", "line 2"),
            (QUARTIC.replace("#nef:2", "#nef:3"), "line 4"),
            ("3 1 1 1\n#ref:2\n", "line 2"),
            ("P:1 V:0 1\n", "line 1"),
            (f"M:11 3 F:3\nM:{'1' * 5000} 3 F:3\n", "line 2"),
        ]:
            with self.assertRaisesRegex(palp.ReportFault, line):
                palp.read(report)


class Items(unittest.TestCase):
    def cut(self, text):
        return [(it.number, it.line, len(it.lines)) for it in palp.items_of(text)]

    def test_weight_lines_and_matrices(self):
        text = b"3 1 1 1\n\n 3 2 a triangle\n-1 -1\n3 -1\n-1 2 rest\n4 1 1 1 1 quartic\n0 5\n1 1\n2\n5"
        self.assertEqual(self.cut(text), [(1, 1, 1), (2, 3, 4), (3, 7, 1), (4, 8, 1), (5, 9, 2), (6, 11, 1)])

    def test_entries_parted_in_any_way(self):
        self.assertEqual(self.cut(b"2 6\n1 1 0\n-1 -1 0 0\n\n1 1 0 -1 -1 9\n3 1 1 1\n"), [(1, 1, 5), (2, 6, 1)])

    def test_faulty_items_take_their_own_lines(self):
        self.assertEqual(self.cut(b"3 2\n1 x\n2 2\n3 3\n3 1 1 1\n"), [(1, 1, 4), (2, 5, 1)])
        self.assertEqual(self.cut(b"hello\n-1 2\n3 1 1 1\n"), [(1, 1, 1), (2, 2, 1), (3, 3, 1)])
        self.assertEqual(self.cut(b"3 1 1 1\n5 2\n1 1\n"), [(1, 1, 1), (2, 2, 2)])

    def test_long_numbers(self):
        long = b"9" * 5000
        self.assertEqual(self.cut(long + b" 2\n2 1 1\n" + b"3 -" + long + b"\n3 " + long + b" 1 1\n3 1 1 1\n"), [(i, i, 1) for i in range(1, 6)])
        zeros = b"0" * 5000
        self.assertEqual(self.cut(zeros + b"2 -" + zeros + b"\n" + zeros + b"1 2\n1 1\n1" + b"0" * 18 + b" 1\n1 1\n"), [(1, 1, 1), (2, 2, 2), (3, 4, 1), (4, 5, 1)])

    def test_texts_of_lists(self):
        self.assertEqual(palp.text_of([[3, 1, 1, 1], [[-1, -1], [3, -1], [-1, 2]], "5 1 1 1 1 1"]), b"3 1 1 1\n3 2\n-1 -1\n3 -1\n-1 2\n5 1 1 1 1 1\n")
        for wrong in ([[1, 2]], [[[1, 2], [3]]], [[]], [[[1, 2, 3], [4, 5, 6]]]):
            with self.assertRaises(ValueError):
                palp.text_of(wrong)


if __name__ == "__main__":
    unittest.main()
