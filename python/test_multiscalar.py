"""Tests of multiscalar.py: python3 -m unittest, with MULTISCALAR_LIBRARY naming the shared library."""

import unittest

import multiscalar

RIGHT = ".task A create=$8 targets=-\nA: addiu $8,$0,5\nout $8\nhalt\n"
WRONG = ".task A create=- targets=-\nA: addiu $8,$0,5\nout $8\nhalt\n"


class Calls(unittest.TestCase):
    def test_check(self):
        self.assertTrue(multiscalar.check(RIGHT))
        verdict = multiscalar.check(WRONG)
        self.assertFalse(verdict)
        self.assertEqual(verdict.findings, [multiscalar.Finding("A", 0, 5, 8)])
        self.assertEqual(verdict.text, "A 0 rule 5 $8\nrefused 1\n")

    def test_check_with_a_certificate(self):
        kept = multiscalar.annotate(RIGHT, multiscalar.AnnotateEmit.KEEP)
        self.assertTrue(multiscalar.check(RIGHT, kept.data))
        self.assertFalse(multiscalar.check(RIGHT, b"cert 2\n"))

    def test_explain(self):
        self.assertEqual(multiscalar.explain(RIGHT), [])
        found = multiscalar.explain(WRONG, name="wrong.s")
        self.assertEqual([(it.severity, it.code, it.name, it.line) for it in found], [("error", "rule5", "wrong.s", 1)])
        self.assertEqual(found[0].message, "the create mask of task A lacks $8")
        self.assertEqual(found[0].advice, ("$8 is written here", "write create=$8"))
        self.assertTrue(multiscalar.explain_text(WRONG, name="wrong.s").text.startswith("wrong.s:1:"))

    def test_annotate(self):
        self.assertTrue(multiscalar.check(multiscalar.annotate(WRONG).data))

    def test_print(self):
        self.assertEqual(multiscalar.print_program(multiscalar.print_program(RIGHT).data).data, multiscalar.print_program(RIGHT).data)

    def test_seq(self):
        self.assertEqual(multiscalar.seq(RIGHT), multiscalar.Report(0, b"5\nhalted after 3 instructions\n"))
        self.assertEqual(multiscalar.seq(RIGHT, budget=2).status, 3)

    def test_run_and_replay(self):
        report = multiscalar.run_in_steps(RIGHT, units=2)
        self.assertEqual((report.status, report.text.splitlines()[0]), (0, "5"))
        script = multiscalar.run_in_steps(RIGHT, units=2, emit=multiscalar.RunEmit.SCRIPT)
        self.assertEqual(multiscalar.replay(RIGHT, script.data, units=2).status, 0)
        waits = multiscalar.run_in_steps(RIGHT, units=2, emit=multiscalar.RunEmit.WAITS)
        self.assertEqual((waits.status, waits.text.splitlines()[-1]), (0, "       0  (all)"))
        rows = multiscalar.run_in_steps(RIGHT, units=2, emit=multiscalar.RunEmit.WAITS_CSV)
        self.assertEqual((rows.status, rows.text), (0, "waits,task,place,reason,register,sent,from\n"))
        waveform = multiscalar.run_in_steps(RIGHT, units=2, emit=multiscalar.RunEmit.VCD)
        self.assertEqual((waveform.status, waveform.text.splitlines()[0]), (0, "$version multiscalar $end"))
        timeline = multiscalar.replay(RIGHT, script.data, units=2, emit=multiscalar.ReplayEmit.PERFETTO)
        self.assertEqual((timeline.status, timeline.text[:17]), (0, '{"traceEvents":[{'))
        state = multiscalar.replay(RIGHT, script.data, units=2, emit=multiscalar.ReplayEmit.STATE)
        self.assertEqual((state.status, state.text.splitlines()[-2:]), (0, ["    unit 0, task A: at line 4", "        has: $8 = 5"]))

    def test_curve(self):
        self.assertEqual(multiscalar.curve(RIGHT, units=2, prediction=[0]).status, 0)
        rows = multiscalar.curve(RIGHT, units=2, emit=multiscalar.CurveEmit.TABLE_CSV)
        self.assertEqual((rows.status, len(rows.text.splitlines())), (0, 3))

    def test_demonstrate(self):
        self.assertEqual(multiscalar.demonstrate(RIGHT).text, "the marks are right: no run shows anything\n")

    def test_numbers_out_of_range(self):
        for call in (lambda: multiscalar.seq(RIGHT, budget=0), lambda: multiscalar.seq(RIGHT, budget=-1), lambda: multiscalar.run_in_steps(RIGHT, units=17),
                     lambda: multiscalar.curve(RIGHT, prediction=[16]), lambda: multiscalar.curve(RIGHT, prediction=[])):
            with self.assertRaises(ValueError):
                call()

    def test_a_long_answer(self):
        program = ".task A create=- targets=-\nA:\n" + "        nop\n" * 4000 + "        halt\n"
        self.assertGreater(len(multiscalar.print_program(program).data), 4096)

    def test_version(self):
        self.assertRegex(multiscalar.version(), r"^\d+\.\d+\.\d+$")


if __name__ == "__main__":
    unittest.main()
