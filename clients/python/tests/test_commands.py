"""Jobs that are commands, and the settings that say so."""
import logging
import os
import sys
import threading
import time
import unittest

from kemtrua import BadSettings, Code, Context, Key, Tls
from kemtrua.commands import Command
from kemtrua.guard import Guard, with_token
from kemtrua.settings import read_node
from tests.helpers import WithFolder, wait_until

EXAMPLE = os.path.join(os.path.dirname(os.path.dirname(__file__)), "node.toml")


def context(data: str = "") -> Context:
    return Context("A", 7, 12, Key("RECOVERING_JOBS", "recover_B_3"), Key("g", "j"), "ok", data, 5, 6)


class Commands(unittest.TestCase):
    def run_(self, script: str, data: str = "", **more: object) -> tuple[Code, str]:
        """What a shell's script answers, and the log."""
        with self.assertLogs("kemtrua.job", logging.INFO) as logs:
            code = Command(["sh", "-c", script], **more).execute(context(data))  # type: ignore[arg-type]
        return code, "\n".join(logs.output)

    def test_exit_statuses_are_codes(self) -> None:
        for status, code in ((0, Code.NOOP), (75, Code.RE_EXECUTE_JOB), (1, Code.NOOP)):
            self.assertEqual(self.run_(f"exit {status}")[0], code)
        self.assertEqual(self.run_("exit 3", codes={3: Code.DELETE_TRIGGER})[0], Code.DELETE_TRIGGER)
        self.assertEqual(self.run_("kill -9 $$", codes={137: Code.SET_TRIGGER_ERROR})[0], Code.SET_TRIGGER_ERROR)

    def test_data_and_environment(self) -> None:
        _, said = self.run_('echo "$KEMTRUA_DATA|$(cat)|$KEMTRUA_ENTRY|$KEMTRUA_JOB_GROUP/$KEMTRUA_JOB|$KEMTRUA_RECOVERING|$KEMTRUA_SCHEDULED|$X"', "é\n", environment={"X": "x"})
        self.assertIn("entry 12 g/j | é", said)
        self.assertIn("|12|g/j|1|5|x", said)
        _, said = self.run_("wc -c; echo ${KEMTRUA_DATA-unset}", "a\0b")
        self.assertIn("| 3", said)
        self.assertIn("| unset", said)

    def test_a_command_needs_not_read_its_data(self) -> None:
        self.assertEqual(self.run_("exec 0<&-; sleep 0.1; exit 0", "x" * 4096)[0], Code.NOOP)

    def test_much_output(self) -> None:
        _, said = self.run_("yes 0123456789 | head -c 3000000", output=1000)
        self.assertLess(len(said), 20000)
        self.assertIn("further bytes of output were dropped", said)
        _, said = self.run_("printf '\\377\\n'; head -c 10000 /dev/zero | tr '\\0' x")
        self.assertIn("| \\xff", said)
        self.assertIn("x" * 4096, said)

    def test_a_command_that_is_not_there(self) -> None:
        for words, more, code in ((["/nowhere/backup"], {}, Code.SET_ALL_JOB_TRIGGERS_ERROR), (["/"], {}, Code.SET_ALL_JOB_TRIGGERS_ERROR),
                                  (["/nowhere/backup"], {"codes": {127: Code.NOOP}}, Code.NOOP)):
            with self.assertLogs("kemtrua.job") as logs:
                self.assertEqual(Command(words, **more).execute(context()), code)
            self.assertIn("can't be run", logs.output[0])

    def test_a_timeout_ends_the_whole_group(self) -> None:
        begun = time.monotonic()
        code, said = self.run_("sleep 500 | sleep 500", timeout=0.3, codes={143: Code.DELETE_TRIGGER})
        self.assertEqual(code, Code.DELETE_TRIGGER)
        self.assertLess(time.monotonic() - begun, 100)
        self.assertIn("SIGTERM", said)

    def test_a_stop_ends_it(self) -> None:
        one = context()
        threading.Timer(0.3, one.stop.set).start()
        with self.assertLogs("kemtrua.job"):
            self.assertEqual(Command(["sleep", "50"], codes={143: Code.DELETE_TRIGGER}).execute(one), Code.DELETE_TRIGGER)

    def test_what_stays_in_the_background_holds_nobody(self) -> None:
        begun = time.monotonic()
        self.run_("sleep 500 & exit 0")
        self.assertLess(time.monotonic() - begun, 100)

    def test_a_guard_ends_the_commands_of_a_node_that_died(self) -> None:
        guard = Guard()
        one = context()
        thread = threading.Thread(target=lambda: Command(["sh", "-c", "setsid sleep 60 & sleep 60"]).execute(one, guard))
        thread.start()
        wait_until(lambda: len(with_token(guard.token)) == 3)
        assert guard._process.stdin is not None
        guard._process.stdin.close()  # (as when the node dies)
        thread.join(20)
        self.assertEqual(with_token(guard.token), [])
        guard._process.wait(20)


class Settings(WithFolder):
    def read(self, text: str) -> object:
        path = f"{self.folder}/node.toml"
        with open(path, "w") as file:
            file.write(text)
        return read_node(path)

    def test_all_of_them(self) -> None:
        found = self.read('[node]\nname = "A"\nhub = "tls:hub:7411"\nworkers = 3\nbatch = 2\nwindow = 5\nahead = 6\ncheck_in = 7000\nfinish_within = 60\n'
                          '[tls]\ncertificate = "c"\nkey = "k"\nauthority = "a"\nrevoked = "r"\n'
                          '[class.backup]\ncommand = ["true", "x"]\ntimeout = 1.5\ncodes = { 0 = "NOOP", 3 = "DELETE_TRIGGER" }\notherwise = "SET_TRIGGER_ERROR"\n'
                          'retries = 2\nretry_after = 60\nthen = "NOOP"\nend_when_cut_off = true\noutput = 10\nenvironment = { A = "b" }\n')
        self.assertEqual((found.name, [str(it) for it in found.addresses], found.check_in, found.finish_within), ("A", ["tls:hub:7411"], 7000, 60))
        self.assertEqual(found.tls, Tls("c", "k", "a", "r"))
        backup = found.classes["backup"]
        self.assertEqual((backup.command.codes[3], backup.command.otherwise, backup.retry.times, backup.ends_when_cut_off), (Code.DELETE_TRIGGER, Code.SET_TRIGGER_ERROR, 2, True))

    def test_bad_ones_say_where(self) -> None:
        for text, word in (("[node", "no TOML"), ("[nod]", "nod"), ("[node]\nworker = 3", "worker"), ("[node]\nworkers = 0", "1 to 10000"), ("[node]\nworkers = true", "a whole number"),
                           ('[node]\nhub = "x"', "no address"), ('[node]\nhub = "unix:/x"\nstore = "/x"', "not both"), ("[tls]\nkey = 'k'", "belong together"),
                           ("[class.a]", "command is missing"), ('[class.a]\ncommand = ["/nowhere/x"]', "isn't there"), ('[class.a]\ncommand = ["true"]\nretrys = 1', "retrys"),
                           ('[class.a]\ncommand = ["true"]\ncodes = { x = "NOOP" }', "exit statuses"), ('[class.a]\ncommand = ["true"]\notherwise = "no"', "SET_TRIGGER_ERROR"),
                           ('[class.a]\ncommand = ["true"]\ndirectory = "/nowhere"', "directory"), ("", "no class"), ("[node]\n", "no class"),
                           ("[node]\nworkers = 10001", "1 to 10000"), ("[node]\ncheck_in = 86400001", "1000 to 86400000"), ("[node]\nclock_limit = nan", "finite"),
                           ('[class.a]\ncommand = ["true"]\ntimeout = inf', "finite"), ('[class.a]\ncommand = ["true"]\ncodes = { "²" = "NOOP" }', "exit statuses"),
                           ('[class.a]\ncommand = ["true"]\nenvironment = { "A=B" = "x" }', "A=B"), ('[class.a]\ncommand = ["true", "\\u0000"]', "no list of texts")):
            with self.assertRaises(BadSettings) as raised:
                self.read(text)
            self.assertIn(word, str(raised.exception))
        with self.assertRaises(BadSettings):
            read_node("/nowhere/node.toml")

    def test_the_job_of_the_example_takes_its_data_for_text(self) -> None:
        """Without quotes, a shell would split the data, and put file names in place of a star."""
        backup = read_node(EXAMPLE).classes["backup"].command
        data = "a  *  $(id) 'b'"
        with self.assertLogs("kemtrua.job", logging.INFO) as logs:
            self.assertEqual(backup.execute(context(data)), Code.NOOP)
        self.assertIn(f"backing up {data}", "\n".join(logs.output))

    def test_the_format_of_the_file(self) -> None:
        self.assertEqual(self.read('format = 1\n[node]\nname = "A"\n[class.a]\ncommand = ["true"]\n').name, "A")
        for text, word in (('format = 2\n[node]\n', "format = 2; this client knows 1"), ('format = "1"\n', "a whole number"), ('formats = 1\n', "formats: there is no such setting"),
                           ('format = 1\n[node]\nclock_limits = 5\n', "clock_limits: there is no such setting")):
            with self.assertRaises(BadSettings) as raised:
                self.read(text)
            self.assertIn(word, str(raised.exception))


if __name__ == "__main__":
    unittest.main()
