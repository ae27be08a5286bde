"""What a line means for the hub: its own lines, who may say which of the program's, and what a reply means for a connection."""
from __future__ import annotations

import asyncio
from collections.abc import Awaitable, Callable
from dataclasses import dataclass

from .. import __version__, clock, forms, logs, names, values
from ..checking import Line, check, value_of
from ..compaction import Compacted
from ..errors import BadLine, HubRefused, KemtruaError, ProgramEnded, Unanswered
from ..ledger import DEFAULT_INTERVAL
from ..patience import Patience
from ..team import Team
from ..values import whole
from ..versions import age_of
from . import telling
from .asking import Asking, Turn
from .listing import Listing
from .rights import Rights
from .speakers import Speakers
from .timekeeping import Timekeeping
from .turns import Turns, due_of
from .visitor import Slot, Visitor

log = logs.logger("kemtrua.hub")

PROTOCOL = 1
OWN_LINES: dict[str, frozenset[str]] = {  # of the hub, with the members that they may have
    "hello": frozenset({"protocol", "version"}), "clock": frozenset({"accept"}), "members": frozenset(), "held": frozenset({"node"}), "list": frozenset(),
    "watch": frozenset({"ahead"}), "where": frozenset(), "compact": frozenset(), "for": frozenset({"name"}), "figures": frozenset(),
    "team": frozenset()}
KEPT_FROM_CONNECTIONS = {"restart": "it would take every node's epoch", "stop": "the hub sends it when a connection breaks",
                         "checkpoint": "the hub sends it when a snapshot is due"}
OPERATORS_OWN = ("list", "where", "compact", "figures", "team")
OPERATORS_LINES = frozenset({*forms.CLIENT_LINES, "show_job", "show_trigger", "show_room"})
OF_CLIENTS = frozenset({*forms.CLIENT_LINES, "recover", "forget"})  # which are kept with who said them, where an operator did
_AHEAD = whole(0, 2**53)
CHANGING = ("join", "resume", "leave")  # after them the connection speaks for another node


@dataclass(frozen=True)
class Home:
    """The hub's folder, its team, and who tends its stores."""

    folder: str
    team: Team
    compact: Callable[[str], Awaitable[Compacted]]


class Lines:
    """Answers the lines of all connections."""

    def __init__(self, asking: Asking, rights: Rights, failed: Callable[[KemtruaError], None]):
        self._asking, self._rights, self._failed = asking, rights, failed
        self._listing = Listing(lambda: asking.folder, asking.program)
        self.home: Home | None = None  # once the folder is open
        self._tasks: set[asyncio.Task[None]] = set()
        self._touched: set[Visitor] = set()
        self._told: str | None = None  # the doubt that was logged last
        self.telling: telling.Telling | None = None  # where the hub keeps a history
        self.connections: Callable[[], int] = lambda: 0  # how many there are
        self.team: Callable[[], Awaitable[bytes]] | None = None  # who tells of the other hubs, where there are some
        self.speakers: Speakers = Speakers()
        self.patience: Patience = Patience()
        self.timekeeping: Timekeeping = Timekeeping()
        own = Turn()
        self.turns: Turns = Turns(lambda take: asking.ask(own, {"do": "show_next"}, take), lambda: asking.ledger.threshold)

    def said(self, visitor: Visitor, data: bytes) -> None:
        slot = visitor.slot()
        try:
            self._look(visitor, slot, value_of(data))
        except KemtruaError as error:
            self._answer(visitor, slot, error)

    def gone(self, visitor: Visitor) -> None:
        """A connection broke: its node may have died. Its epoch and its executions stay, until it resumes or is recovered."""
        node, visitor.node = visitor.node, None
        self.speakers.drop_all(visitor)
        self.turns.gone(visitor)
        if node is not None:
            log.warning("the connection of %s broke", node)
            self._do(self._stop(node))

    def flush(self) -> None:
        """Sends what is answered, and looks at the lines that waited for it."""
        while self._touched:
            visitor = self._touched.pop()
            visitor.flush()
            visitor.pump()

    def doubt(self) -> KemtruaError | None:
        """Why the program isn't asked, where the hub's clock may be wrong."""
        if self._asking.holding is not None and (held := self._asking.holding.doubt()) is not None:
            return held
        if self.timekeeping.look():
            return None
        doubt = f"{self.timekeeping.doubt}: nothing is asked of the store until somebody looks at it and says `kemtrua clock accept`"
        if doubt != self._told:
            self._told = doubt
            log.error("%s", doubt)
        return HubRefused("clock", doubt)

    async def end(self) -> None:
        for task in self._tasks:
            task.cancel()
        await asyncio.gather(*self._tasks, return_exceptions=True)

    # -- answers

    def _answer(self, visitor: Visitor, slot: Slot, said: str | KemtruaError) -> None:
        visitor.answer(slot, said if isinstance(said, str) else self._words(said))
        self._touched.add(visitor)

    def _words(self, error: KemtruaError) -> str:
        """One line, whatever names are in it."""
        if isinstance(error, HubRefused):
            word = error.word
        elif isinstance(error, (BadLine, Unanswered)):
            word = "bad-line" if isinstance(error, BadLine) else "unanswered"
        else:
            self._failed(error)
            word = "ended"
        return " ".join(["hub", word, *str(error).split()])

    def _do(self, work: Awaitable[None]) -> None:
        task = asyncio.ensure_future(work)
        self._tasks.add(task)
        task.add_done_callback(self._tasks.discard)

    def _later(self, visitor: Visitor, slot: Slot, work: Awaitable[str | bytes]) -> None:
        """Answers with what comes of this. The connection's next line waits for it."""
        visitor.is_busy = True

        async def answer() -> None:
            try:
                said = await work
                await self._asking.shown()
                visitor.answer(slot, said)
            except KemtruaError as error:
                visitor.answer(slot, self._words(error))
            except Exception:  # (whatever is wrong with one line, its connection gets an answer and goes on)
                log.exception("a line met what nobody foresaw")
                visitor.answer(slot, "hub failed the line met what nobody foresaw; the hub's log has it")
            visitor.is_busy = False
            self._touched.add(visitor)
            self.flush()

        self._do(answer())

    # -- lines

    def _look(self, visitor: Visitor, slot: Slot, line: object) -> None:
        if not isinstance(line, dict) or not isinstance(line.get("do"), str):
            check(line)  # (which says what is wrong)
            return
        do = line["do"]
        if do in OWN_LINES:
            self._own_line(visitor, slot, line)
            return
        if do in telling.LINES:
            self._tell(visitor, slot, line)
            return
        if do in KEPT_FROM_CONNECTIONS:
            raise HubRefused("not-here", f"{do} isn't for connections: {KEPT_FROM_CONNECTIONS[do]}")
        if do not in forms.LINES:
            raise HubRefused("not-here", f"{do[:40]!r} is no line that this hub knows")
        if "at" in line:
            raise HubRefused("bad-line", "at: the hub reads the clock itself, so that no connection can set the store's moment")
        if do in OPERATORS_LINES:
            self._rights.may_operate(visitor.who)
        step = check(line)  # (before a name is taken, which stays taken while the connection lasts)
        if "node" in step and do != "resume":
            self._may_speak(visitor, str(step["node"]), begins=do == "join")
        self._hand_on(visitor, slot, step)

    def _hand_on(self, visitor: Visitor, slot: Slot, line: Line) -> None:
        do = line["do"]
        if (doubt := self.doubt()) is not None:
            raise doubt
        if do == "resume":
            self._later(visitor, slot, self._resume(visitor, line))
            return
        if do == "acquire":
            line = self._within_limit(visitor, line)
        elif do == "check_in" and not self._rights.is_operator(visitor.who):
            self.speakers.may_check_in(str(line["node"]), int(line.get("interval", DEFAULT_INTERVAL)))  # type: ignore[call-overload]
        elif do == "recover":
            self._may_recover(str(line["failed"]))
        elif do == "show_next":
            visitor.asleep, visitor.next_known = True, None  # (what changes from here on wakes it)
        if do in ("acquire", "misfires"):
            self.turns.asks(visitor)
        if do in CHANGING:
            visitor.is_busy = True

        def take(said: str | KemtruaError) -> None:
            if do in CHANGING:
                visitor.is_busy = False
            elif do == "acquire":
                visitor.acquiring -= int(line["max"])  # type: ignore[call-overload]
                self.turns.acquired(visitor, isinstance(said, str) and said.startswith("acquired") and said != "acquired none")
            elif do == "misfires":
                self.turns.handled(visitor, said != "misfired none")
            answered = self._noted(visitor, line, said) if isinstance(said, str) else said
            if self.telling is not None and do in OF_CLIENTS and self._rights.is_operator(visitor.who):
                self.telling.recorder.said(visitor.in_full(), line, answered if isinstance(answered, str) else self._words(answered))
            self._answer(visitor, slot, answered)

        self._asking.ask(visitor.turn, line, take)

    def _noted(self, visitor: Visitor, line: Line, reply: str) -> str | KemtruaError:
        """What a reply means for the connection, and what of it is answered."""
        do = line["do"]
        if do == "show_next" and reply.startswith("next"):
            due = due_of(reply)
            visitor.next_known = due if visitor.next_known is None else visitor.next_known
            if visitor.takes_turns and visitor.node is not None:
                self.turns.slept(visitor, due)
        elif do == "join":
            self._joined(visitor, str(line["node"]), reply)
        elif do == "leave" and reply == "ok":
            log.info("%s leaves", visitor)
            self.speakers.drop(str(line["node"]), visitor)
            self.turns.gone(visitor)
            visitor.node = None
        elif do == "recover" and reply.startswith("recovered"):
            log.warning("%s takes %s for failed: %s", visitor, line["failed"], reply)
        elif do == "show_entry" and not self._may_see(visitor, reply):
            return HubRefused("no-right", f"entry {line['entry']} is another node's")
        if reply == "fault":
            self._failed(ProgramEnded(5, "a disk failed in a step"))
        return reply

    def _joined(self, visitor: Visitor, node: str, reply: str) -> None:
        if reply.startswith("joined") and not visitor.is_gone:
            visitor.node = node
            log.info("%s: join %s", visitor, reply)
        elif visitor.node is None:
            self.speakers.drop(node, visitor)
            if reply.startswith("joined"):
                self._do(self._stop(node))

    async def _resume(self, visitor: Visitor, line: Line) -> str:
        """Lets a connection speak for its node again, also in place of one that hasn't been seen to break."""
        node, epoch = str(line["node"]), line["epoch"]
        other = self.speakers.of(node)
        is_right = self._asking.ledger.members.get(node) == epoch
        if other is not None and other is not visitor and other.who == visitor.who and is_right:
            log.warning("%s comes back on a new connection; the former one, which hasn't been seen to break, is closed", node)
            other.node = None
            self.speakers.drop(node, other)
            other.abort()
        self._may_speak(visitor, node, begins=True)
        try:
            if node in self._asking.ledger.held and visitor.node is None:
                await self._asking.own({"do": "stop", "node": node})
            reply = await self._asking.own(line)
        except KemtruaError:
            if visitor.node is None:
                self.speakers.drop(node, visitor)
            raise
        holds = reply == "ok" or is_right and self._asking.ledger.held.get(node) == epoch
        if holds and not visitor.is_gone and self.speakers.of(node) is visitor:
            visitor.node = node
            log.info("%s: resume %s %s", visitor, epoch, reply)
            return "ok" if visitor.node else reply
        if visitor.node is None:
            self.speakers.drop(node, visitor)
            if reply == "ok" and not self.speakers.has(node):
                await self._stop(node)
        return reply

    async def _stop(self, node: str) -> None:
        """The program is to hold the node's epoch no longer. Where it can't be asked, the node's next resume does so."""
        try:
            if node in self._asking.ledger.held and not self.speakers.has(node):
                await self._asking.own({"do": "stop", "node": node})
        except KemtruaError as error:
            log.warning("%s", error)

    # -- who may

    def _may_speak(self, visitor: Visitor, node: str, begins: bool) -> None:
        """Raises where the connection can't speak for this node."""
        if visitor.node not in (None, node):
            raise HubRefused("not-yours", f"this connection speaks for {visitor.node!r}, and not for {node!r}")
        if visitor.node is None and not begins:
            raise HubRefused("not-yours", f"this connection hasn't joined as {node!r}: send join or resume first")
        if begins:
            self._rights.may_be(visitor.who, node)
            self.speakers.take(node, visitor)

    def _may_see(self, visitor: Visitor, reply: str) -> bool:
        words = reply.split(" ", 3)
        return len(words) < 4 or self._rights.is_operator(visitor.who) or names.unescape(words[2]) == visitor.node

    def _may_recover(self, failed: str) -> None:
        left = self.patience.left_for(self._asking.ledger.intervals.get(failed, DEFAULT_INTERVAL))
        if left > 0:
            raise HubRefused("wait", f"until {clock.now() + left}: since the hub began, slept or waited for the disk, {failed!r} hasn't had the time to check in")

    def _within_limit(self, visitor: Visitor, line: Line) -> Line:
        """The acquire, for no more than the node may have in its hands. Raises where it has as many already."""
        node = str(line["node"])
        most, wanted = self._rights.most(visitor.who, node), int(line.get("max", 1))  # type: ignore[call-overload]
        if most is not None:
            room = most - self._asking.ledger.count_of(node) - visitor.acquiring
            if room <= 0:
                raise HubRefused("too-many", f"{node!r} has {most} entries in its hands, and may have no more")
            wanted = min(wanted, room)
        visitor.acquiring += wanted
        return {**line, "max": wanted}

    def _tell(self, visitor: Visitor, slot: Slot, line: Line) -> None:
        """A line about what ran. A node may tell of itself on any of its connections."""
        if self.telling is None:
            raise HubRefused("not-here", "this hub keeps no history: its log says why")
        if line["do"] in telling.OF_NODES:
            self._rights.may_be(visitor.who, str(line.get("node")))
        else:
            self._rights.may_operate(visitor.who)
        self._later(visitor, slot, self.telling.answer(line))

    # -- the hub's own lines

    def _own_line(self, visitor: Visitor, slot: Slot, line: Line) -> None:
        do = str(line["do"])
        unknown = set(line) - {"do"} - OWN_LINES[do]
        if unknown or do == "held" and not isinstance(line.get("node"), str):
            allowed = ", ".join(OWN_LINES[do]) or "no member"
            raise HubRefused("bad-line", f"{do} has {allowed} beside do")
        if do == "watch":
            self._watch(visitor, line)
            self._answer(visitor, slot, "ok")
        elif do == "hello":
            self._answer(visitor, slot, self._hello(line))
        elif do == "for":
            self._answer(visitor, slot, self._speak_for(visitor, line))
        elif do == "clock":
            self._answer(visitor, slot, self._clock(visitor, line))
        elif do in OPERATORS_OWN:
            self._rights.may_operate(visitor.who)
            answers: dict[str, Callable[[], Awaitable[str | bytes]]] = {"list": self._list, "where": self._where, "figures": self._figures,
                                                                         "compact": lambda: self._compact(visitor), "team": self._team}
            visitor.alone(lambda: self._later(visitor, slot, answers[do]()))
        else:
            if do == "held" and not self._rights.is_operator(visitor.who) and line["node"] != visitor.node:
                raise HubRefused("no-right", f"what {line['node']!r} has in its hands is for itself and for operators")
            visitor.alone(lambda: self._show(visitor, slot, line))

    def _watch(self, visitor: Visitor, line: Line) -> None:
        """With `ahead` the connection takes turns; without, it hears of all that may be due sooner than it knows."""
        if problems := list(_AHEAD(line.get("ahead", 0), "ahead")):
            raise BadLine(problems)
        self.turns.gone(visitor)
        visitor.takes_turns, visitor.ahead = "ahead" in line, int(line.get("ahead", 0))  # type: ignore[call-overload]
        visitor.watches = not visitor.takes_turns

    def _hello(self, line: Line) -> str:
        """Whether whoever asks can work with this hub, and which team it is."""
        protocol, version = line.get("protocol", PROTOCOL), line.get("version", __version__)
        if not isinstance(protocol, int) or not isinstance(version, str):
            raise HubRefused("bad-line", "hello has a number as protocol and a text as version")
        newer = protocol > PROTOCOL or age_of(version) == "new"
        if newer or protocol < PROTOCOL:
            age, remedy = ("new", "upgrade the hub first") if newer else ("old", "upgrade it")
            raise HubRefused(f"too-{age}", f"whoever speaks protocol {protocol} in version {version[:40]} is too {age} for this hub, which speaks {PROTOCOL} in "
                                           f"version {__version__}: {remedy}")
        return f"hello {PROTOCOL} {__version__}" + (f" {self.home.team.id} {self.home.team.generation}" if self.home is not None else "")

    def _speak_for(self, visitor: Visitor, line: Line) -> str:
        """What this connection says from now on is kept as said for this one, and through it."""
        self._rights.may_operate(visitor.who)
        wrong = list(values.name(line.get("name"), "name"))
        if wrong:
            raise BadLine(wrong)
        visitor.speaks_for = str(line["name"])
        return "ok"

    async def _figures(self) -> bytes:
        more = self._asking.holding.figures() if self._asking.holding is not None else {}
        return self._asking.figures.told(connections=self.connections(), **more)

    def _clock(self, visitor: Visitor, line: Line) -> str:
        if line.get("accept", False) is not False:
            self._rights.may_operate(visitor.who)
            log.warning("%s accepts the hub's clock as it is: %s", visitor, clock.local(clock.now()))
            self.timekeeping.accept()
            self.patience.begin_anew()
        elif (doubt := self.doubt()) is not None:
            raise doubt
        return f"clock {clock.now()}"

    def _show(self, visitor: Visitor, slot: Slot, line: Line) -> None:
        """Answers from the ledger, once all of it may be shown."""
        if self._asking.holding is None:
            self._answer(visitor, slot, self._known(line))
        else:
            self._later(visitor, slot, self._known_later(line))

    async def _known_later(self, line: Line) -> str:
        return self._known(line)

    def _known(self, line: Line) -> str:
        ledger = self._asking.ledger
        if line["do"] == "members":
            return " ".join(["members", *map(names.escape, ledger.peers())])
        return " ".join(["held", *map(str, ledger.entries_of(str(line["node"])))])

    async def _team(self) -> bytes:
        """Who leads, and how far the other hubs are."""
        if self.team is None:
            raise HubRefused("not-here", "this hub is the only one of its team")
        return await self.team()

    async def _where(self) -> str:
        assert self.home is not None
        return f"where {names.escape(self.home.folder)}"

    async def _compact(self, visitor: Visitor) -> str:
        """Has the stores be compacted, and says how many bytes they had and have, and how many ms nothing was answered."""
        assert self.home is not None
        if (doubt := self.doubt()) is not None:
            raise doubt
        try:
            done = await self.home.compact(f"{visitor} asked for it")
        except HubRefused:
            raise
        except KemtruaError as error:
            raise HubRefused("failed", str(error)) from None  # (where the hub can't go on, it ends by itself)
        return f"compacted {done.before} {done.after} {round(done.pause * 1000)}"

    async def _list(self) -> bytes:
        rows = (await self._listing.rows()).rstrip(b"\n")
        count = rows.count(b"\n") + 1 if rows else 0
        return b"list %d" % count + (b"\n" + rows if rows else b"")
