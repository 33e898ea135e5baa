"""What the scripts that look at reports share: the reading of a report (docs/FORMATS.md, "Report"), and what it tells of transactions."""
from __future__ import annotations

import re
from dataclasses import dataclass, field

NUMBER = "(?:0|[1-9][0-9]{0,18})"
INTEGER = "(?:0|-?[1-9][0-9]{0,18})"
NAME = "[A-Za-z][A-Za-z0-9_]{0,31}"
ID = rf"{NUMBER}\.{NUMBER}"
CELL = rf"{NAME}\[{INTEGER}(?:,{INTEGER}){{1,4}}\]\.{NAME}"
NODE = f"[cs]{NUMBER}"
EDGE = f"{ID}/(?:i|d|id)@{NUMBER}"
REASON = "foreign|badproc|badgroup|badinputs|nothere|late|differs|stale|unfit"
FORMS = {word: re.compile(word + rest) for word, rest in {
    "submit": f" ({ID}) {NAME}(?: {INTEGER})*",
    "busy": f" ({NUMBER})",
    "spent": f" ({NUMBER})",
    "draining": f" ({NUMBER})",
    "noproc": f" ({NUMBER})",
    "drain": f" (c{NUMBER})",
    "deliver": f" ({NUMBER})",
    "none": "",
    "tick": f" ({NODE})",
    "stop": f" (s{NUMBER})(?: ({NUMBER}) (none|{NUMBER}))?",
    "ignored": f" ({REASON})",
    "gone": "",
    "skipped": "",
    "send": rf" ({NUMBER}) ([a-z]+) ({ID}) ({NODE}) ({NODE})((?: {EDGE})*)((?: \+{ID})*)",
    "answer": f" ({ID})(?: {INTEGER})*",
    "order": f"((?: {ID})*)",
    "row": rf" ({CELL}) ({INTEGER})",
    "pending": f" ({ID})",
    "end": f" ({NUMBER}) answered ({NUMBER}) pending ({NUMBER}) messages",
}.items()}

# The first letters of who sends and who gets a message of each kind, and whether it shows edges and facts.
KINDS = {"start": ("cs", False, False), "startok": ("sc", True, True), "commit": ("cs", True, True), "commitok": ("sc", False, False),
         "fetch": ("ss", False, False), "known": ("ss", True, False), "ended": ("cs", False, False), "settled": ("ss", False, False),
         "read": ("cs", False, False), "readok": ("sc", False, False), "drained": ("cs", False, False), "switched": ("sc", False, False)}

# The kinds that show a mark in the id's place: they are of no transaction.
MARKS = ("ended", "drained", "switched")

# Which closing lines may stand behind which: "" stands for the events.
BEHIND = {"": ("order",), "order": ("row", "pending", "end"), "row": ("row", "pending", "end"), "pending": ("pending", "end"), "end": ()}


class NotAReport(Exception):
    """The text is no report: the line and why."""


@dataclass
class Event:
    """An event, with what came of it."""
    index: int
    line: int
    words: str
    node: str
    message: Message | None = None
    sends: list[Message] = field(default_factory=list)
    untaken: str = ""
    answer: str = ""

    @property
    def word(self) -> str:
        return self.words.split(" ")[0]

    @property
    def is_taken(self) -> bool:
        """Whether a node took a submission or a message here; a server that stops without a record of it took none."""
        if self.word == "stop":
            return self.message is not None and not self.words.endswith(" none")
        return self.word in ("submit", "deliver") and not self.untaken


@dataclass
class Message:
    """A message, with the events that sent and delivered it."""
    number: str
    kind: str
    named: str
    receiver: str
    edges: list[str]
    facts: list[str]
    sent: Event
    deliveries: list[Event] = field(default_factory=list)

    @property
    def transaction(self) -> str:
        """The transaction that it is of; empty where a mark stands in the id's place."""
        return "" if self.kind in MARKS else self.named


@dataclass
class Report:
    """What the lines of a report say."""
    events: list[Event] = field(default_factory=list)
    messages: list[Message] = field(default_factory=list)
    order: list[str] = field(default_factory=list)
    rows: dict[str, str] = field(default_factory=dict)
    pending: list[str] = field(default_factory=list)
    end: str = ""


class Reader:
    """Takes the lines of a report one by one, and refuses the first that has no place where it stands. What a picture needs to be right is
    asked for here (numbers that rise, senders that act), so that drawing never doubts its report."""

    def __init__(self) -> None:
        self.report = Report()
        self.closing = ""
        self.number = 0

    def ensure(self, holds: bool, why: str) -> None:
        if not holds:
            raise NotAReport(f"line {self.number}: {why}")

    def take(self, line: str) -> None:
        self.number += 1
        word = line.split(" ")[0]
        match = FORMS[word].fullmatch(line) if word in FORMS else None
        self.ensure(match is not None, "no line of a report")
        if word in BEHIND:
            self.ensure(word in BEHIND[self.closing], f"no place for a line `{word}`")
            self.closing = word
            self.take_closing(line, match.groups())
            return
        self.ensure(self.closing == "", "an event behind the line `order`")
        takers = {"ignored": self.take_untaken, "gone": self.take_untaken, "skipped": self.take_untaken, "send": self.take_send, "answer": self.take_answer}
        takers.get(word, self.take_event)(line, match.groups())

    def take_event(self, line: str, groups: tuple[str, ...]) -> None:
        event = Event(len(self.report.events), self.number, line, "")
        if event.word == "deliver":
            self.ensure(0 < int(groups[0]) <= len(self.report.messages), f"message {groups[0]} was not sent")
            event.message = self.report.messages[int(groups[0]) - 1]
            event.message.deliveries.append(event)
            event.node = event.message.receiver
        elif event.word in ("tick", "drain"):
            event.node = groups[0]
        elif event.word == "stop":
            event.node = groups[0]
            if groups[1]:
                self.take_stop(event, int(groups[1]))
        elif event.word != "none":
            event.node = "c" + groups[0].split(".")[0]
        self.report.events.append(event)

    def take_stop(self, event: Event, number: int) -> None:
        """A server stops at a message, which comes to it."""
        self.ensure(0 < number <= len(self.report.messages), f"message {number} was not sent")
        event.message = self.report.messages[number - 1]
        self.ensure(event.message.receiver == event.node, f"message {number} does not go to {event.node}")
        event.message.deliveries.append(event)

    def last(self) -> Event:
        self.ensure(bool(self.report.events), "no event stands before it")
        return self.report.events[-1]

    def take_untaken(self, line: str, groups: tuple[str, ...]) -> None:
        event = self.last()
        self.ensure(event.line == self.number - 1 and event.word == "deliver", "no delivery stands directly before it")
        event.untaken = line

    def take_send(self, line: str, groups: tuple[str, ...]) -> None:
        number, kind, named, sender, receiver, edges, facts = groups
        event = self.last()
        self.ensure(kind in KINDS, f"no kind of message: {kind}")
        route, may_have_edges, may_have_facts = KINDS[kind]
        self.ensure(int(number) == len(self.report.messages) + 1, f"message {len(self.report.messages) + 1} is the next one")
        self.ensure(sender[0] + receiver[0] == route, f"a {kind} goes another way")
        self.ensure((may_have_edges or not edges) and (may_have_facts or not facts), f"a {kind} carries no such list")
        self.ensure(event.word in ("submit", "deliver", "tick", "stop", "drain") and not event.untaken and not event.answer, "its event sends nothing here")
        self.ensure(event.node == sender, f"{sender} sends, and {event.node} acts")
        message = Message(number, kind, named, receiver, edges.split(), facts.split(), event)
        event.sends.append(message)
        self.report.messages.append(message)

    def take_answer(self, line: str, groups: tuple[str, ...]) -> None:
        event = self.last()
        self.ensure(event.word == "deliver" and not event.untaken and not event.answer, "no delivery that may answer stands before it")
        self.ensure(event.message.transaction == groups[0], f"the delivery is one of {event.message.transaction}")
        event.answer = line

    def take_closing(self, line: str, groups: tuple[str, ...]) -> None:
        report = self.report
        if self.closing == "order":
            report.order = groups[0].split()
            self.ensure(len(set(report.order)) == len(report.order), "a transaction stands twice in the order")
        elif self.closing == "row":
            report.rows[groups[0]] = groups[1]
        elif self.closing == "pending":
            report.pending.append(groups[0])
        elif self.closing == "end":
            counts = (sum(1 for event in report.events if event.answer), len(report.pending), len(report.messages))
            self.ensure(tuple(map(int, groups)) == counts, "counts that are not those of the lines before")
            report.end = line[len("end "):]


def read_report(data: bytes) -> Report:
    """The report of a text of ASCII lines, each with a line feed at its end."""
    reader = Reader()
    for line in data.decode("latin-1").split("\n")[:-1]:
        reader.take(line)
    reader.number += 1
    reader.ensure(data.endswith(b"\n") or not data, "no line feed at the end")
    reader.ensure(reader.closing == "end", "the text ends without a line `end`")
    return reader.report


# ---- what it tells of transactions

def by_number(name: str) -> tuple[int, ...]:
    """Orders ids as the protocol does."""
    return tuple(map(int, name.split(".")))


def concerns(event: Event) -> list[str]:
    """The transactions that an event is about, the first of its message or submission and then those of what it sends."""
    own = [event.message.transaction] if event.message else [event.words.split(" ")[1]] if event.word == "submit" else []
    return [name for name in own + [message.transaction for message in event.sends] if name]


def transactions(report: Report) -> list[str]:
    """Every transaction that the report names, in the order in which it does; a colour is chosen by this place."""
    named: dict[str, None] = {}
    for event in report.events:
        named.update(dict.fromkeys(concerns(event)))
        for message in event.sends:
            named.update((edge.split("/")[0], None) for edge in message.edges)
            named.update((fact[1:], None) for fact in message.facts)
    named.update((name, None) for name in report.order + report.pending)
    return list(named)


def decisions(report: Report) -> dict[int, list[str]]:
    """By event, the transactions that its server decides there: it sends its first commitoks of them, in the order in which it took them."""
    seen: set[tuple[str, str]] = set()
    found: dict[int, list[str]] = {}
    for event in report.events:
        for message in event.sends if event.word in ("deliver", "stop") else []:
            if message.kind == "commitok" and (event.node, message.transaction) not in seen:
                seen.add((event.node, message.transaction))
                found.setdefault(event.index, []).append(message.transaction)
    return found


def precedes(report: Report) -> dict[tuple[str, str], str]:
    """The union of the edges of all startoks: from a predecessor to a transaction, with the tags of all and the least shard."""
    union: dict[tuple[str, str], tuple[str, int]] = {}
    for message in report.messages:
        for edge in message.edges if message.kind == "startok" else []:
            before, tags, shard = re.split("[/@]", edge)
            key = (before, message.transaction)
            old_tags, old_shard = union.get(key, ("", int(shard)))
            union[key] = ("".join(tag for tag in "id" if tag in old_tags + tags), min(old_shard, int(shard)))
    return {key: f"{tags}@{shard}" for key, (tags, shard) in sorted(union.items(), key=lambda item: tuple(map(by_number, item[0])))}


def views(report: Report) -> set[str]:
    """The ids that are read for: those of views."""
    return {message.transaction for message in report.messages if message.kind == "read"}


def rounds(report: Report) -> dict[int, int]:
    """By event, the round of a view that begins there: its first one as it is submitted, and each other one where a readok comes that ends the round
    before. A tick begins none: it sends reads of the round under way again."""
    begun: dict[str, int] = {}
    found: dict[int, int] = {}
    for event in report.events:
        reads = [message.transaction for message in event.sends if message.kind == "read"]
        if reads and event.word != "tick":
            found[event.index] = begun[reads[0]] = begun.get(reads[0], 0) + 1
    return found


def is_kept(event: Event) -> bool:
    """Whether a read came here that its server answers later."""
    return event.word == "deliver" and event.message.kind == "read" and not event.untaken and not event.sends
