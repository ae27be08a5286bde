"""What has to hold of a run, each as one check with its own line."""
from collections import Counter
from collections.abc import Callable, Iterator
from dataclasses import dataclass

from kemtrua.names import RECOVERIES, Key
from team import plan
from team.evidence import Execution, Heard, History, Said
from team.trouble import Done, Troubles

SLACK = 5000  # ms that a slow machine may add to what takes a known time
ENDS_WITHIN = 60000  # ms in which a node that was stopped ends what it lost
BESIDE = 500  # ms at either end of a time in which something holds


@dataclass
class Run:
    """All that is known of a run."""

    size: plan.Size
    document: dict
    troubles: list[Done]
    made: Troubles  # with what came of them
    history: History
    commands: list[Said]
    heard: Heard
    left: list[str]  # the lines of `list` at the end
    statuses: dict[str, int | None]  # of the nodes and the hub, at the end
    ended: int  # when all was over

    def key_of(self, entry: int) -> Key | None:
        known = self.heard.acquired.get(entry)
        return known[0] if known else None

    def job_of(self, entry: int) -> str | None:
        """The job of an entry, by its command or by its trigger."""
        said = next((said.job for said in self.commands if said.entry == entry), None)
        key = self.key_of(entry)
        if said is None and key is not None and key.group == RECOVERIES:
            return self.job_of(int(key.name.rpartition("_")[2]))
        return said or next((it["job"] for it in self.document["triggers"] if key == Key("DEFAULT", it["name"])), None)

    def stubborn(self) -> list[str]:
        return [f"{plan.STUBBORN.name}-{number}" for number in range(plan.STUBBORN_JOBS)]

    def lost(self) -> list[Execution]:
        return [it for it in self.history.executions.values() if it.lost is not None and it.completed is None]


def all_fired(run: Run) -> Iterator[str]:
    """each trigger fired at each of its times, once"""
    fired = Counter(run.heard.acquired[entry] for entry in run.history.executions if entry in run.heard.acquired)
    for trigger in run.document["triggers"]:
        for number in range(trigger["count"] + 1):
            time = trigger["start"] + number * trigger["interval"]
            count = fired[Key("DEFAULT", trigger["name"]), time]
            if count != 1:
                yield f"{trigger['name']} fired {count} times for {time}"


def not_before_time(run: Run) -> Iterator[str]:
    """nothing fired or began before its time"""
    for said in run.commands:
        if said.at < said.scheduled:
            yield f"entry {said.entry} began {said.scheduled - said.at} ms before its time"
    for entry, execution in run.history.executions.items():
        if entry in run.heard.acquired and execution.fired < run.heard.acquired[entry][1]:
            yield f"entry {entry} was fired before its time"


def commands_follow(run: Run) -> Iterator[str]:
    """each command belongs to an execution of the store, and each execution that wasn't lost ran to its end"""
    ended = {said.entry for said in run.commands if said.word == "end"}
    for said in run.commands:
        execution = run.history.executions.get(said.entry)
        if execution is None or execution.node != said.node:
            yield f"entry {said.entry} ran on {said.node}, and the store doesn't say so"
    for execution in run.history.executions.values():
        if execution.completed is not None and execution.entry not in ended:
            yield f"entry {execution.entry} was completed, and its command didn't end"
    for entry, count in Counter(said.entry for said in run.commands if said.word == "begin" and said.refires == 0).items():
        if count != 1:
            yield f"entry {entry} began {count} times"


def exclusive(run: Run) -> Iterator[str]:
    """no exclusive job ran twice at once, unless a node that was stopped was recovered meanwhile"""
    for said in run.commands:
        if said.word == "overlap" and not any(goes_on(run, it, said) for it in run.lost()):
            yield f"entry {said.entry} of {said.job} ran beside entry {said.holder}"
    spans: dict[str, list[Execution]] = {}
    for execution in run.history.executions.values():
        job = run.job_of(execution.entry)
        if job is not None and plan.kind_of(job).exclusive:
            spans.setdefault(job, []).append(execution)
    for job, found in spans.items():
        found.sort(key=lambda it: it.entry)
        for one, other in ((a, b) for a in found for b in found if a is not b):
            if one.fired <= other.fired and (one.end is None or other.fired < one.end):
                yield f"entries {one.entry} and {other.entry} of {job} go on at once in the store"


def goes_on(run: Run, lost: Execution, said: Said) -> bool:
    """Whether a lost execution of the same job may be the one beside which a command ran: its node was stopped, and then had to end it."""
    if run.job_of(lost.entry) != said.job or lost.entry == said.entry or lost.lost is None or lost.lost > said.at + SLACK:
        return False
    return any(it.what == "stop" and it.who == lost.node and it.begun <= lost.lost + SLACK and said.at <= it.ended + ENDS_WITHIN for it in run.troubles)


def commands_die_with_their_node(run: Run) -> Iterator[str]:
    """the commands of a killed node ended with it, also workers that ignore SIGTERM, and operators got in all the time"""
    yield from run.made.wrong


def timeouts_end_all(run: Run) -> Iterator[str]:
    """executions whose workers ignore SIGTERM, or have a session of their own, ran into their time-out and were completed"""
    completed = [it for it in run.history.executions.values() if it.completed is not None and run.job_of(it.entry) in run.stubborn()]
    if not completed:
        yield "no such execution was completed: nothing was tried"
    for execution in completed:
        if (execution.completed or 0) - execution.fired < 1000 * plan.TIMEOUT:
            yield f"entry {execution.entry} was completed before its time-out"


def recovered_once(run: Run) -> Iterator[str]:
    """each lost execution that asks for it ran once more, and no other did"""
    again = Counter(key.name for entry in run.history.executions if (key := run.key_of(entry)) is not None and key.group == RECOVERIES)
    wanted = {f"recover_{it.node}_{it.entry}": it for it in run.lost()}
    for name, execution in wanted.items():
        job = run.job_of(execution.entry)
        asks = job is not None and plan.kind_of(job).asks
        if again[name] != int(asks):
            yield f"entry {execution.entry} of {job} was lost with {execution.node}, and ran {again[name]} times more"
    for name in again:
        if name not in wanted:
            yield f"{name} ran, and nothing was lost"


def nothing_lost(run: Run) -> Iterator[str]:
    """what the store acknowledged is in its history"""
    for entry in sorted(run.heard.fired - set(run.history.executions)):
        yield f"the firing of entry {entry} was acknowledged, and isn't there"
    for entry in sorted(run.heard.completed):
        execution = run.history.executions.get(entry)
        if execution is None or execution.completed is None:
            yield f"the completion of entry {entry} was acknowledged, and isn't there"


def the_living_stay(run: Run) -> Iterator[str]:
    """no node was recovered that had a check-in answered within its interval and 7.5 seconds"""
    patience = round(1000 * (run.size.check_in + 7.5))
    for moment, node, by_another in run.history.losses:
        late = [it for it in run.heard.check_ins.get(node, ()) if moment - patience < it.begun and it.answered <= moment]
        if by_another and late:
            yield f"{node} was recovered at {moment}, and its check-in of {late[-1].begun} had been answered"


def clocks_are_borne(run: Run) -> Iterator[str]:
    """nothing was recorded while the hub's clock was a year ahead, a node an hour ahead wasn't let in, and others worked by the hub's clock"""
    for trouble in (it for it in run.troubles if it.what == "year"):
        for moment in run.history.moments:
            if trouble.begun + BESIDE < moment < trouble.set_back - BESIDE:
                yield f"something was recorded at {moment}, {moment - trouble.begun} ms after the hub's clock had jumped"
    ahead = [moment for moment in run.history.moments if moment > run.ended + SLACK]
    if ahead:
        yield f"{len(ahead)} transactions lie ahead of the clock"
    if plan.OUTSIDE in run.history.nodes or "isn't let in" not in run.heard.texts[plan.OUTSIDE]:
        yield f"{plan.OUTSIDE} was let in, or didn't say that it isn't"
    for node in plan.AHEAD:
        if node != plan.OUTSIDE and not any(it.node == node for it in run.history.executions.values()):
            yield f"{node} executed nothing"


def greed_is_bounded(run: Run) -> Iterator[str]:
    """a node that hoards got as much as it may, and silent connections kept nobody out"""
    if not 0 < run.made.hoarded <= plan.HOARDS or not run.made.refused:
        yield f"{plan.HOARDER} had {run.made.hoarded} entries in its hands at once; {run.made.refused} acquires were refused"
    if run.made.silent != run.size.silent:
        yield f"only {run.made.silent} silent connections could be made"


def half_open_ones_give_way(run: Run) -> Iterator[str]:
    """a node whose connection was half open came back under its epoch"""
    if not run.made.half_open:
        yield "no connection was left half open: nothing was tried"
    if "hasn't been seen to break" not in run.heard.texts[plan.HUB]:
        yield "the hub let no connection take the place of a half-open one"


def hub_kills_survived(run: Run) -> Iterator[str]:
    """executions that went on while the hub was away were completed"""
    tried = 0
    for trouble in (it for it in run.troubles if it.who == plan.HUB and it.what in ("kill", "stop")):
        for execution in run.history.executions.values():
            over = execution.fired < trouble.begun and (execution.end or 0) > trouble.ended
            harmed = any(it.who == execution.node and it.begun <= (execution.end or 0) and it.ended + 1000 * 30 >= execution.fired for it in run.troubles)
            if over and not harmed:
                tried += 1
                if execution.completed is None:
                    yield f"entry {execution.entry} went on while the hub was away, and was lost"
    if not tried:
        yield "no execution went on while the hub was away: nothing was tried"


def all_is_done(run: Run) -> Iterator[str]:
    """at the end nothing is left to do, and all ended in good order"""
    for line in run.left:
        if line.startswith(("trigger ", "fired ", "member ")):
            yield f"left: {line}"
    for who, status in run.statuses.items():
        if status != 0:
            yield f"{who} ended with status {status}"


def something_was_lost(run: Run) -> Iterator[str]:
    """the run tried what it is for: executions were lost, recovered, and run again"""
    if not run.lost():
        yield "no execution was lost"
    if not any(by_another for _, _, by_another in run.history.losses):
        yield "no node was recovered by another"


CHECKS: list[Callable[[Run], Iterator[str]]] = [
    all_fired, not_before_time, commands_follow, exclusive, commands_die_with_their_node, timeouts_end_all, recovered_once, nothing_lost, the_living_stay,
    clocks_are_borne, greed_is_bounded, half_open_ones_give_way, hub_kills_survived, all_is_done, something_was_lost]


def failures_of(run: Run) -> int:
    """Makes all checks, says what came of each, and gives how many failed."""
    failed = 0
    for check in CHECKS:
        wrong = list(check(run))
        failed += bool(wrong)
        print(f"{'FAILED' if wrong else 'passed'}: {check.__doc__}")
        for text in wrong[:10]:
            print(f"    {text}")
        if len(wrong) > 10:
            print(f"    and {len(wrong) - 10} more")
    return failed
