"""Whole calls of apstry, with stand-ins for the programs."""
import os
import signal
import subprocess
import time
import xml.etree.ElementTree as ElementTree

from .base import ROOT, SCENARIO, StudyTest, without_note
from .test_children import is_gone

LATE = ("--measure", "late = responses : late")
IDLE = ("--measure", "idle = summary : idle")
NONE_LATE = ("--require", "late = 0")


class Tables(StudyTest):
    def test_all_combinations_in_order(self) -> None:
        rows = self.table("--vary", "Ctl.budget=20..30:5", "--vary", "window=10,100", *LATE, *IDLE)
        self.assertEqual(rows, [
            ["Ctl.budget", "window", "late", "idle", "state"],
            ["20", "10", "10", "10", "done"], ["20", "100", "10", "100", "done"],
            ["25", "10", "5", "10", "done"], ["25", "100", "5", "100", "done"],
            ["30", "10", "0", "10", "done"], ["30", "100", "0", "100", "done"]])

    def test_without_a_varied_key_there_is_one_row(self) -> None:
        self.assertEqual(self.table(*LATE), [["late", "state"], ["5", "done"]])

    def test_the_order_does_not_depend_on_what_ends_first(self) -> None:
        vary = ("--vary", "window=30..100:10")
        expected = [["window", "idle", "state"]] + [[str(window), str(window), "done"] for window in range(30, 101, 10)]
        for jobs in ("1", "8"):
            self.assertEqual(self.table(*vary, *IDLE, "--jobs", jobs), expected)

    def test_requirements_are_a_column(self) -> None:
        rows = self.table("--vary", "Ctl.budget=29,30,31", *LATE, *IDLE, *NONE_LATE, "--require", "idle < 101")
        self.assertEqual([(row[0], row[3]) for row in rows[1:]], [("29", "no"), ("30", "yes"), ("31", "yes")])

    def test_none_meets_nothing(self) -> None:
        rows = self.table("--measure", "worst = responses : response worst", "--require", "worst < 5")
        self.assertEqual(rows[1], ["none", "no", "done"])

    def test_a_cut_run_meets_nothing(self) -> None:
        rows = self.table("--vary", "stand_in=limit,reboot", "--vary", "Ctl.budget=40", *LATE, *NONE_LATE)
        self.assertEqual(rows[1:], [["limit", "40", "0", "no", "limit"], ["reboot", "40", "0", "no", "reboot"]])

    def test_a_refused_run_is_a_row(self) -> None:
        rows = self.table("--vary", "stand_in=refuse,none", *LATE)
        self.assertEqual(rows[1:], [["refuse", "-", "refused budget-over partition[0].budget"], ["none", "5", "done"]])

    def test_a_missing_line_is_an_error_that_names_it(self) -> None:
        rows = self.table(*LATE, "--measure", "gone = latency : thread 1 > open call", status=1)
        self.assertEqual(rows[1], ["5", "-", "error latency has no line 'thread 1 > open call'"])

    def test_runs_that_fail_are_errors(self) -> None:
        rows = self.table("--vary", "stand_in=crash,no_memory,hang", *LATE, "--seconds", "3", status=1)
        self.assertEqual([row[2] for row in rows[1:]], [
            "error apsview ended with signal 6: ", "error apsview ended with status 7: aps responses 1",
            "error apsview was killed after 3 s"])

    def test_a_report_is_made_once_for_all_its_measures(self) -> None:
        log = self.folder / "log"
        self.environment["STAND_IN_LOG"] = str(log)
        self.table(*IDLE, "--measure", "ctl = summary : partition 1 Ctl billed", "--measure", "t = summary : thread 0 t ran")
        self.assertEqual(len(log.read_text().splitlines()), 1)

    def test_windows_and_options_are_passed_on(self) -> None:
        log = self.folder / "log"
        self.environment["STAND_IN_LOG"] = str(log)
        self.table("--measure", "late = responses --thread ctl --deadline 5ms : late")
        self.assertEqual(log.read_text().split()[1:], ["responses", "--thread", "ctl", "--deadline", "5ms"])

    def test_a_short_form_is_expanded_first(self) -> None:
        self.scenario = self.written("short.toml", SCENARIO + 'task = [{name = "a", period = "7ms"}]\nstand_in = "none"\n')
        rows = self.table("--tasks", "--vary", "a.period=5ms,6ms", *LATE)
        self.assertEqual(rows[1:], [["5ms", "5", "done"], ["6ms", "5", "done"]])


class Least(StudyTest):
    def test_the_least_value_with_what_was_tried(self) -> None:
        rows = self.table("--vary", "Ctl.budget=20..60:2", *LATE, *NONE_LATE, "--least", "Ctl.budget")
        self.assertEqual(rows[0], ["Ctl.budget", "late", "tried", "not_monotone", "state"])
        self.assertEqual(rows[1][:2] + rows[1][3:], ["30", "0", "-", "done"])
        tried = dict(word.split(":") for word in rows[1][2].split())
        self.assertLessEqual({"20", "26", "28", "30", "32", "34", "60"}, tried.keys())
        self.assertEqual(tried, {value: "yes" if int(value) >= 30 else "no" for value in tried})

    def test_one_search_for_each_value_of_another_key(self) -> None:
        words = ("--vary", "window=90,100", "--vary", "Ctl.budget=20..60:2", "--least", "Ctl.budget")
        for jobs in ("1", "8"):
            rows = self.table(*words, *LATE, *NONE_LATE, "--jobs", jobs)
            self.assertEqual([row[:3] for row in rows[1:]], [["90", "30", "0"], ["100", "30", "0"]])

    def test_none_is_found(self) -> None:
        rows = self.table("--vary", "Ctl.budget=10..20:1", *LATE, *NONE_LATE, "--least", "Ctl.budget", status=1)
        self.assertEqual(rows[1][:2], ["none", "-"])

    def test_a_value_called_none_is_no_failure(self) -> None:
        words = ("--vary", "stand_in=none", "--vary", "Ctl.budget=30,31", *LATE, *NONE_LATE)
        self.assertEqual(self.table(*words, "--least", "Ctl.budget")[1][:3], ["none", "30", "0"])

    def test_a_run_that_fails_is_shown(self) -> None:
        words = ("--vary", "stand_in=crash", "--vary", "Ctl.budget=30,31", *LATE, *NONE_LATE)
        row = self.table(*words, "--least", "Ctl.budget", status=1)[1]
        self.assertEqual(row, ["crash", "none", "-", "30:error 31:error", "-", "error apsview ended with signal 6: "])

    def test_a_fall_is_shown(self) -> None:
        words = ("--vary", "Ctl.budget=26..34:1", *LATE, "--require", "late <= 3", "--require", "late != 1")
        rows = self.table(*words, "--least", "Ctl.budget")
        self.assertEqual(rows[1][0], "27")
        self.assertEqual(rows[1][3], "28>29")


class Others(StudyTest):
    def test_commands_print_the_same_table(self) -> None:
        words = ("--vary", "Ctl.budget=20..30:5", "--vary=window=50,100", *LATE, *NONE_LATE, "--seconds", "9")
        child = self.start("apstry", self.scenario, "--commands", *words)
        commands, _ = child.communicate(timeout=60)
        self.assertEqual((child.returncode, len(commands.splitlines())), (0, 6))
        _, table, _ = self.ended("apstry", self.scenario, *words)
        done = subprocess.run(["/bin/sh"], input=commands, env=self.environment, text=True, cwd=ROOT,
                              stdout=subprocess.PIPE, stderr=subprocess.DEVNULL)
        self.assertEqual(done.stdout, table)

    def test_a_picture_has_a_field_for_each_point(self) -> None:
        heat = self.folder / "heat.svg"
        self.table("--vary", "Ctl.budget=20,30", "--vary", "window=90,95,100", *LATE, *NONE_LATE, "--heat", str(heat))
        root = ElementTree.parse(heat).getroot()
        titles = [title.text for title in root.iter("{http://www.w3.org/2000/svg}title")]
        self.assertEqual(len(titles), 6)
        self.assertEqual(titles[0], "Ctl.budget 20, window 90: 10 done")
        self.assertEqual(titles[5], "Ctl.budget 30, window 100: 0 done")
        signs = [text.text for text in root.iter("{http://www.w3.org/2000/svg}text") if "✓" in (text.text or "")]
        self.assertEqual(signs, ["0 ✓"] * 3 + ["hatched: no value · ✓: meets what is required"])

    def test_words_that_a_program_refuses_end_the_study(self) -> None:
        status, out, err = self.ended("apstry", self.scenario, "--vary", "window=90..99:1", "--measure", "x = latency --wrong : wake")
        self.assertEqual((status, out), (2, "window\tx\tstate\n"))
        self.assertIn("apsview refuses the words 'latency --wrong'\nusage: REPORT", err)

    def test_without_a_program_there_is_status_125(self) -> None:
        (self.programs / "apsview").unlink()
        self.assertIn("./prove apsview", self.refused(*LATE, status=125))
        self.assertEqual(self.table(*IDLE)[1], ["100", "done"])

    def test_without_apstasks_there_is_status_125(self) -> None:
        (self.programs / "apstasks").unlink()
        self.assertIn("./prove apstasks", self.refused("--tasks", *IDLE, status=125))

    def test_refused_words(self) -> None:
        for words, reason in (
                (("--vary", "Ctl.budget", *LATE), "is no KEY=VALUES"),
                (("--vary", "X.budget=1", *LATE), "has the name X"),
                (("--vary", "window=1", "--vary", "window=2", *LATE), "two columns would be called window"),
                ((*LATE, *LATE), "two columns would be called late"),
                (("--measure", "state = summary : idle"), "two columns would be called state"),
                (("--vary", "window=1", *LATE, "--least", "window"), "--least needs --require"),
                (("--vary", "window=1", *LATE, *NONE_LATE, "--least", "cpus"), "a key with its own --vary"),
                (("--vary", "free=a,b", *LATE, *NONE_LATE, "--least", "free"), "no least one"),
                (("--vary", "window=1", *LATE, "--heat", "x.svg"), "exactly two"),
                (("--vary", "a=1\t2", *LATE), "can't be printed"),
                (("--vary", "window=1..9999:1", "--vary", "cpus=1..9999:1", *LATE), "99980001 points"),
                ((*LATE, "--seconds", "0"), "--seconds"), ((*LATE, "--jobs", "0"), "--jobs"),
                ((*LATE, "--insecure"), "belong to --scheduler"),
                ((*LATE, "--commands", "--scheduler", "tcp://127.0.0.1:1"), "--commands goes without"),
                ((*LATE, "--quick", "--scheduler", "tcp://127.0.0.1:1"), "--quick goes without")):
            with self.subTest(words):
                self.assertIn(reason, self.refused(*words))

    def test_refusals_are_printed(self) -> None:
        self.assertEqual(self.refused("--vary", "X.budget=1", *LATE),
                         "apstry: nothing in the scenario has the name X; looked for in partition, thread\n")
        self.assertIn("the following arguments are required: --measure", self.refused())
        child = self.start("apstry", self.scenario, *LATE, "--jobs", "0")
        self.assertEqual(child.communicate(timeout=60), ("", "apstry: --jobs: wanted is a number from 1 to 1024\n"))
        self.assertEqual(child.returncode, 2)

    def test_a_file_that_is_not_there(self) -> None:
        self.scenario = str(self.folder / "absent.toml")
        self.assertIn("absent.toml can't be read: No such file", self.refused(*LATE))

    def test_a_reader_that_goes_away(self) -> None:
        child = self.start("apstry", self.scenario, "--vary", "Ctl.budget=0..99:1", *IDLE)
        child.stdout.readline()
        child.stdout.close()
        self.assertEqual(child.wait(30), 141)
        self.assertEqual(without_note(child.stderr.read()), "")
        child.stderr.close()


class Stops(StudyTest):
    def stopped_by(self, number: int, program: str, *words: str) -> None:
        """Stops a program whose children hang, and looks whether they are gone."""
        log = self.folder / "log"
        self.environment["STAND_IN_LOG"] = str(log)
        child = self.start(program, self.scenario, *words)
        while not log.exists() or len(log.read_text().splitlines()) < 3:
            time.sleep(0.01)
        os.kill(child.pid, number)
        out, err = child.communicate(timeout=20)
        self.assertEqual((child.returncode, without_note(err)), (130, f"{program}: stopped\n"))
        processes = [int(line.split()[0]) for line in log.read_text().splitlines()]
        self.assertTrue(all(is_gone(process) for process in processes))
        time.sleep(0.2)
        self.assertEqual(len(log.read_text().splitlines()), len(processes))

    def test_ctrl_c(self) -> None:
        words = ("--vary", "stand_in=hang", "--vary", "window=1..9:1", *IDLE, "--jobs", "3")
        self.stopped_by(signal.SIGINT, "apstry", *words)

    def test_a_polite_kill(self) -> None:
        words = ("--vary", "stand_in=hang", "--vary", "window=1..9:1", *IDLE, "--jobs", "3")
        self.stopped_by(signal.SIGTERM, "apstry", *words)

    def test_ctrl_c_ends_a_comparison(self) -> None:
        self.scenario = self.written("hangs.toml", SCENARIO + 'stand_in = "hang"\n')
        self.stopped_by(signal.SIGINT, "apsdiff", self.scenario)
