"""The binding on P1 to P10 of document 01. CORRUMAI_LIBRARY names the shared library."""

import os
import re
import threading
import unittest

import corrumai
from corrumai import Answer

ROOT = os.path.join(os.path.dirname(os.path.abspath(__file__)), "..", "..")


def example(name):
    with open(os.path.join(ROOT, "examples", name), "rb") as file:
        return file.read()


class Examples(unittest.TestCase):
    def test_plans(self):
        for name in ["p1", "p5", "p6", "wood", "p1-edition2", "wood-server"]:
            self.assertEqual(corrumai.plan(example(name + ".sheet")), example(name + ".list"))
            self.assertEqual(corrumai.length(example(name + ".sheet")), len(example(name + ".list")))

    def test_refusals(self):
        for name, answer, detail in [("p3", 1, 0), ("p7", 1, 0), ("p8", 21, 1), ("p9", 21, 0)]:
            for function in (corrumai.plan, corrumai.length):
                with self.assertRaises(corrumai.Refused) as caught:
                    function(example(name + ".sheet"))
                self.assertEqual((caught.exception.answer, caught.exception.detail), (answer, detail))
        with self.assertRaises(corrumai.Refused) as caught:
            corrumai.plan(b"")
        self.assertIs(caught.exception.answer, Answer.BAD_CONTENTS)
        self.assertEqual(str(caught.exception), "ANSWER 10 0")

    def test_judge(self):
        self.assertIs(corrumai.judge(example("p1.sheet"), example("p1.list")), Answer.PLAN)
        self.assertIs(corrumai.judge(example("p10.sheet"), example("p10.list")), Answer.NOT_A_PLAN)
        self.assertIs(corrumai.judge(bytearray(example("p1.sheet")), b""), Answer.BAD_LIST)
        self.assertIs(corrumai.judge(b"\x01", b""), Answer.BAD_CONTENTS)

    def test_editions(self):
        first, second = example("p1.sheet"), example("p1-edition2.sheet")
        self.assertEqual(corrumai.to_edition2(first), second)
        self.assertEqual(second[29], 1)
        self.assertEqual(corrumai.to_edition1(second), first)
        back = corrumai.to_edition1
        for function, sheet, answer in [
            (corrumai.to_edition2, second, Answer.BAD_CONTENTS),
            (back, first, Answer.BAD_CONTENTS),
            (back, example("wood-server.sheet"), Answer.NO_WAY_BACK),
            (back, second[:29] + b"\x00" + second[30:], Answer.NO_WAY_BACK),
        ]:
            with self.assertRaises(corrumai.Refused) as caught:
                function(sheet)
            self.assertEqual((caught.exception.answer, caught.exception.detail), (answer, 0))

    def test_late(self):
        sheet, run_list = example("p1.sheet"), example("p1.list")
        for delays, answer, tick in [
            ([0, 1], Answer.PLAN, 0),
            ((0, 91), Answer.PLAN, 0),
            ([1, 0], Answer.NOT_A_PLAN, 6),
            ([0, 92], Answer.NOT_A_PLAN, 100),
            ([corrumai.MOST_DELAY, 0], Answer.NOT_A_PLAN, 6),
            ([corrumai.MOST_DELAY + 1, 0], Answer.BAD_LIST, 0),
            ([65536, 0], Answer.BAD_LIST, 0),
            ([0], Answer.BAD_LIST, 0),
            (range(3), Answer.BAD_LIST, 0),
        ]:
            self.assertEqual(corrumai.late(sheet, run_list, delays), (answer, tick), delays)
        self.assertEqual(corrumai.late(sheet, example("p10.list"), [0, 0]), (Answer.NOT_A_PLAN, 0))
        self.assertEqual(corrumai.late(b"", b"", []), (Answer.BAD_CONTENTS, 0))
        with self.assertRaises(ValueError):
            corrumai.late(sheet, run_list, [-1, 0])

    def test_move_on(self):
        sheet, run_list = example("p1.sheet"), example("p1.list")
        run, seen = corrumai.fresh(sheet), []
        self.assertEqual(repr(run), "Run(next=0, held=1)")
        for _ in range(110):
            corrumai.move_on(sheet, run_list, [1, 0], run)
            seen.append((run.next, run.facts()))
        self.assertEqual([seen[tick] for tick in (5, 6, 9)], [(6, [0]), (7, [0, 1]), (10, [0, 1, 2])])
        self.assertEqual([seen[tick] for tick in (99, 100, 109)], [(100, [0, 1, 2])] + [(101, [0, 1, 2])] * 2)
        for name, delays, answer in [("p1.list", [0], Answer.BAD_LIST), ("p10.list", [0, 0], Answer.NOT_A_PLAN)]:
            run = corrumai.Run(5, 1)
            with self.assertRaises(corrumai.Refused) as caught:
                corrumai.move_on(sheet, example(name), delays, run)
            self.assertEqual((caught.exception.answer, run.next, run.held), (answer, 5, 1))
        with self.assertRaises(corrumai.Refused) as caught:
            corrumai.fresh(b"")
        self.assertIs(caught.exception.answer, Answer.BAD_CONTENTS)

    def test_cost(self):
        sheet, run_list = example("p1.sheet"), example("p1.list")
        most = corrumai.MOST_RATE
        for rates, due in [([60, 60], (8, 0)), ((7, 11), (1, 8)), ([6, 10], (1, 0)), ([most, most], (133333, 20)), (range(2), (0, 3))]:
            self.assertEqual(corrumai.cost(sheet, run_list, rates), due, rates)
            self.assertEqual(corrumai.cost(example("p1-edition2.sheet"), run_list, rates), due, rates)
        wood = [int(word) for word in example("wood.rates").split()]
        self.assertEqual(corrumai.cost(example("wood.sheet"), example("wood.list"), wood), (2443, 50))
        for rates in [[most + 1, 0], [0, 2**32 - 1], [2**32, 0], [2**32 + 60, 60], [60], [60, 60, 60], []]:
            with self.assertRaises(corrumai.Refused) as caught:
                corrumai.cost(sheet, run_list, rates)
            self.assertIs(caught.exception.answer, Answer.BAD_RATES, rates)
            self.assertEqual(str(caught.exception), "ANSWER 51 0")
        for other, answer in [(example("p10.list"), Answer.NOT_A_PLAN), (b"", Answer.BAD_LIST)]:
            with self.assertRaises(corrumai.Refused) as caught:
                corrumai.cost(sheet, other, [])
            self.assertIs(caught.exception.answer, answer)
        with self.assertRaises(ValueError):
            corrumai.cost(sheet, run_list, [-1, 0])

    def test_newer(self):
        p1 = example("p1-edition2.sheet")
        revised = lambda revision: bytearray(p1[:30] + revision.to_bytes(2, "little") + p1[32:])
        for one, other in [(1, 2), (255, 256), (32767, 32768), (0, 65535)]:
            older, later, again = revised(one), revised(other), revised(other)
            self.assertIs(corrumai.newer(older, later), later)
            self.assertIs(corrumai.newer(later, older), later)
            self.assertIs(corrumai.newer(later, again), later)
            self.assertIs(corrumai.newer(again, later), again)
        server, corrected = example("wood-server.sheet"), example("corrected/wood-server.sheet")
        self.assertIs(corrumai.newer(server, corrected), corrected)
        shorter, facts, bounds = (p1[:at] + bytes([byte]) + p1[at + 1 :] for at, byte in [(27, 99), (29, 61), (61, 9)])
        for first, second, answer in [
            (p1, shorter, Answer.OTHER_BYTES),
            (shorter, p1, Answer.OTHER_BYTES),
            (p1, example("p1.sheet"), Answer.BAD_CONTENTS),
            (example("p1.sheet"), facts, Answer.BAD_CONTENTS),
            (facts, bounds, Answer.BAD_FACTS),
            (bounds, facts, Answer.BAD_BOUNDS),
            (b"", b"", Answer.BAD_CONTENTS),
        ]:
            with self.assertRaises(corrumai.Refused) as caught:
                corrumai.newer(first, second)
            self.assertEqual((caught.exception.answer, caught.exception.detail), (answer, 0))

    def test_threads(self):
        sheet, due, found = example("wood.sheet"), example("wood.list"), []
        run = lambda: found.append(all(corrumai.plan(sheet) == due for _ in range(50)))
        threads = [threading.Thread(target=run) for _ in range(4)]
        for thread in threads:
            thread.start()
        for thread in threads:
            thread.join()
        self.assertEqual(found, [True] * 4)

    def test_numbers_are_the_header_s(self):
        with open(os.path.join(ROOT, "include", "corrumai.h"), encoding="utf-8") as file:
            header = file.read()
        numbers = dict(re.findall(r"^  CORRUMAI_(\w+) = (\d+)", header, flags=re.M))
        self.assertEqual({name: str(int(answer)) for name, answer in Answer.__members__.items()}, numbers)
        self.assertIn(f"#define CORRUMAI_LONGEST_PLAN {corrumai.LONGEST_PLAN}\n", header)
        self.assertIn(f"#define CORRUMAI_LONGEST_SHEET {corrumai.LONGEST_SHEET}\n", header)
        self.assertIn(f"#define CORRUMAI_MOST_DELAY {corrumai.MOST_DELAY}\n", header)
        self.assertIn(f"#define CORRUMAI_MOST_RATE {corrumai.MOST_RATE}\n", header)
        self.assertIn(f'#define CORRUMAI_VERSION "{corrumai.__version__}"\n', header)


if __name__ == "__main__":
    unittest.main()
