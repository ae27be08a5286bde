"""Files of job_scheduling_data: what they say, and what is answered to those that aren't."""
import tempfile
import unittest

from kemtrua.from_quartz import convert, xml_file
from kemtrua.from_quartz.java_zones import JavaZones
from kemtrua.from_quartz.model import BadSource, Cron, Interval, Simple, Source
from kemtrua.from_quartz.report import Outcome
from kemtrua.names import Key

NOW = 1893456000000
HEAD = '<?xml version="1.0"?>\n<job-scheduling-data xmlns="http://www.quartz-scheduler.org/xml/JobSchedulingData" version="{}">\n'
JOB = "<job><name>j</name><job-class>com.acme.Report</job-class></job>"
OLD = HEAD.format("1.8") + """<schedule>
<job><name>j</name><group>g</group><description>d</description><job-class>com.acme.Report</job-class><job-listener-ref>l</job-listener-ref>
<volatility>true</volatility><durability>true</durability><recover>1</recover>
<job-data-map><entry><key> to </key><value>a&amp;b</value></entry><entry><key>none</key><value/></entry></job-data-map></job>
<trigger><date-interval><name>t</name><job-name>j</job-name><job-group>g</job-group><volatility>false</volatility><start-time>2030-01-31T10:00:00Z</start-time>
<misfire-instruction>MISFIRE_INSTRUCTION_DO_NOTHING</misfire-instruction><repeat-interval>1</repeat-interval><repeat-interval-unit>MONTH</repeat-interval-unit>
</date-interval></trigger></schedule></job-scheduling-data>"""


def new(schedule: str, before: str = "") -> str:
    return HEAD.format("2.0") + before + f"<schedule>{schedule}</schedule></job-scheduling-data>"


def cron(name: str, more: str = "", text: str = "0 0 12 * * ?") -> str:
    return f"<trigger><cron><name>{name}</name><job-name>j</job-name>{more}<cron-expression>{text}</cron-expression></cron></trigger>"


class WithFile(unittest.TestCase):
    def read(self, *texts: str | bytes, zone: str | None = "UTC") -> Source:
        with tempfile.TemporaryDirectory() as folder:
            paths = []
            for number, text in enumerate(texts):
                paths.append(f"{folder}/{number}.xml")
                with open(paths[-1], "wb") as file:
                    file.write(text if isinstance(text, bytes) else text.encode())
            return xml_file.read(paths, JavaZones(zone), NOW)


class Right(WithFile):
    def test_a_file_of_1_8(self) -> None:
        source = self.read(OLD)
        job, trigger = source.jobs[0], source.triggers[0]
        self.assertEqual((job.key, job.klass, job.durable, job.requests_recovery), (Key("g", "j"), "com.acme.Report", True, True))
        self.assertEqual(job.data.values, {"to": "a&b", "none": None})
        self.assertEqual([outcome for outcome, _ in job.remarks], [Outcome.LESSENED, Outcome.LESSENED, Outcome.CHANGED])
        self.assertEqual((trigger.schedule, trigger.start, trigger.misfire), (Interval("MONTH", 1, None), 1896084000000, 2))
        self.assertRegex(trigger.place, r"0\.xml:7$")

    def test_a_file_of_2_0(self) -> None:
        simple = ("<trigger><simple><name>s</name><group>g</group><job-name>j</job-name><priority>9</priority><calendar-name>c</calendar-name>"
                  "<start-time-seconds-in-future>5</start-time-seconds-in-future><end-time>2031-01-01T00:00:00</end-time>"
                  "<misfire-instruction>MISFIRE_INSTRUCTION_RESCHEDULE_NEXT_WITH_EXISTING_COUNT</misfire-instruction>"
                  "<repeat-count>3</repeat-count><repeat-interval>1000</repeat-interval></simple></trigger>")
        source = self.read(new(JOB + simple + cron("c")))
        first, second = source.triggers
        self.assertEqual((first.key, first.schedule, first.start, first.end), (Key("g", "s"), Simple(1000, 3), NOW + 5000, 1924992000000))
        self.assertEqual((first.priority, first.calendar, first.misfire), (9, "c", 5))
        self.assertEqual((second.schedule, second.start, second.priority), (Cron("0 0 12 * * ?", None), NOW, 5))

    def test_several_files_and_what_is_wanted(self) -> None:
        source = self.read(new(JOB), new(cron("t", "<calendar-name>free</calendar-name>") + cron("u").replace(">j<", ">other<"), "<pre-processing-commands>"
                           "<delete-job><name>x</name></delete-job></pre-processing-commands><processing-directives><ignore-duplicates>true</ignore-duplicates>"
                           "</processing-directives>"))
        report = convert.convert(source, JavaZones("UTC"), frozenset()).report
        wanted = [(remark.what, remark.why) for remark in report.remarks if remark.outcome is Outcome.WANTED]
        self.assertEqual([what for what, _ in wanted], ["command delete-job DEFAULT/x", "directive ignore-duplicates", "trigger DEFAULT/t", "trigger DEFAULT/u"])
        self.assertIn("'free'", wanted[2][1])
        self.assertIn("DEFAULT/other", wanted[3][1])


class Wrong(WithFile):
    def refused(self, text: str | bytes, *words: str, zone: str | None = "UTC") -> None:
        with self.assertRaises(BadSource) as raised:
            self.read(text, zone=zone)
        for word in words:
            self.assertIn(word, str(raised.exception))

    def test_entities(self) -> None:
        bomb = '<?xml version="1.0"?>\n<!DOCTYPE x [\n<!ENTITY a "ha">' + "".join(f'<!ENTITY {chr(98 + n)} "{("&" + chr(97 + n) + ";") * 10}">' for n in range(9)) + "]>\n<x>&j;</x>"
        self.refused(bomb, "line 2", "DOCTYPE")
        self.refused('<?xml version="1.0"?>\n\n<!DOCTYPE x SYSTEM "file:///etc/passwd"><x/>', "line 3", "DOCTYPE")
        self.refused(new("&bomb;"), "line 3", "undefined entity")

    def test_files_of_other_kinds(self) -> None:
        texts: list[tuple[str | bytes, list[str]]] = [
            ("", ["line 1", "no element found"]), ("{}", ["line 1", "isn't XML"]), ("<a>", ["isn't XML"]), ("<beans/>", ["the root is <beans>", "no file of job_scheduling_data"]),
            ('<quartz version="1.5"/>', ["Quartz 1.x"]), ("<job-scheduling-data/>", ["namespace"]), (HEAD.format("3.0") + "</job-scheduling-data>", ["line 2", "'3.0'"]),
            (b'<?xml version="1.0" encoding="x-none"?><a/>', ["line 1", "unknown encoding"]), (new("<a>" * 40 + "</a>" * 40), ["nest deeper"]),
            (b'<?xml version="1.0"?><a>\xff</a>', ["line 1"]),
        ]
        for text, words in texts:
            self.refused(text, *words)

    def test_elements_that_are_not_the_schemas(self) -> None:
        for schedule, words in (
            ("\n<task/>", ["line 4", "<task> can't be in <schedule>", "job, trigger"]), ("<job><name>j</name></job>", ["line 3", "<job> has no <job-class>"]),
            ("<job><job-class>c</job-class><name>j</name></job>", ["<name> can't come behind <job-class>"]),
            ("<job><name>j</name><job-class>c</job-class><durability>true</durability></job>", ["<durability> without <recover>"]),
            ("<job><name>a</name><name>b</name><job-class>c</job-class></job>", ["2 <name>"]), ("<job>text<name>a</name><job-class>c</job-class></job>", ["'text'"]),
            ("<job><name> </name><job-class>c</job-class></job>", ["<name>: it is empty"]), ("<trigger/>", ["one kind of trigger"]),
            ("<trigger><date-interval/></trigger>", ["by the schema 2.0", "calendar-interval"]), (cron("t", "<priority>high</priority>"), ["'high'", "whole number"]),
            (cron("t", "<start-time>soon</start-time>"), ["<start-time>", "'soon'"]), (cron("t", "<misfire-instruction>NOW</misfire-instruction>"), ["'NOW'", "DO_NOTHING"]),
            (cron("t", "<end-time>2030-01-01T00:00:00</end-time><start-time>2030-01-01T00:00:00</start-time>"), ["can't come behind"]),
        ):
            self.refused(new(schedule), *words)

    def test_a_zone_that_is_not_said(self) -> None:
        self.refused(new(cron("t", "<start-time>2030-01-01T00:00:00</start-time>")), "line 3", "--zone", zone=None)
        source = self.read(new(JOB + cron("t", "<start-time>2030-01-01T00:00:00Z</start-time>")), zone=None)
        with self.assertRaises(BadSource) as raised:
            convert.convert(source, JavaZones(None), frozenset())
        self.assertIn("trigger DEFAULT/t: it has no zone", str(raised.exception))


if __name__ == "__main__":
    unittest.main()
