"""A script as the reference answers it, line by line, for comparison alone."""

import collections
import re
from dataclasses import dataclass

from operations import Refused

ROOM = 16448
HEX_FIELDS = ("type", "usage", "alg", "alg2", "life", "id", "step")
REPLY = re.compile(r"([0-9]+\.[0-9]+) @(0|[1-9][0-9]*) [A-Z_]+( ([0-9a-f]{2})+)?")


@dataclass
class Line:
    """A call: its fixed words in order, as pairs of what a word is and the word, and its fields."""

    session: int
    command: str
    words: list
    fields: dict

    def text(self):
        words = [str(self.session), self.command, *(word for _, word in self.words)]
        for name, value in self.fields.items():
            if isinstance(value, bytes):
                value = value.hex()
            elif name in HEX_FIELDS:
                value = f"{value:x}"
            words.append(f"{name}={value}")
        return " ".join(words)


def text_of(lines):
    return "".join(line.text() + "\n" for line in lines)


class Run:
    """The calls so far on a service, and the replies to them."""

    def __init__(self, service):
        self.service, self.lines = service, []
        self.given, self.own = {}, collections.defaultdict(list)

    def named(self, session):
        """The names that a session's lines have given."""
        return [name for owner, name in self.given if owner == session]

    def living(self, session):
        """Those of them that name a key which is there."""
        return [name for name in self.named(session) if self.given[session, name] in self.service.named_keys(session)]

    def identifier(self, session, word):
        """What a session's word for a key means."""
        return self.given[session, word[1:]] if word[0] == "$" else int(word[1:], 16)

    def make(self, line):
        """Makes the call of a line; gives its status and what it answers."""
        fields, name = {"room": ROOM, "ad": b""} | line.fields, None
        for kind, word in line.words:
            if kind == "name":
                name = word
            elif kind == "key":
                fields["key"] = self.identifier(line.session, word)
            else:
                fields["handle"] = word
        command = "import_" if line.command == "import" else line.command
        try:
            status, answer = "SUCCESS", self.service.call(line.session, command, fields)
        except Refused as refusal:
            status, answer = refusal.status, b""
        if name:
            self.given[line.session, name] = int.from_bytes(answer, "big")
        own = self.own[line.session]
        digits = f" {answer.hex()}" if answer else ""
        own.append(f"{line.session}.{len(own) + 1} @{len(self.lines)} {status}{digits}")
        self.lines.append(line)
        return status, answer

    def replies(self):
        return [reply for session in sorted(self.own) for reply in self.own[session]]


def by_rank(lines, printed):
    """A script's lines in the order of the ranks that were printed. A ValueError says why that is no order of theirs."""
    calls = collections.defaultdict(list)
    for line in lines:
        calls[line.session].append(line)
    due = [(f"{session}.{number}", line) for session in sorted(calls) for number, line in enumerate(calls[session], 1)]
    if len(printed) != len(due):
        raise ValueError(f"{len(printed)} replies to {len(due)} calls")
    order, last = {}, {}
    for reply, (place, line) in zip(printed, due):
        words = REPLY.fullmatch(reply)
        if not words or words[1] != place:
            raise ValueError(f"'{reply}' in place of the reply {place}")
        rank = int(words[2])
        if rank >= len(due) or rank in order or rank < last.get(line.session, 0):
            raise ValueError(f"the rank of '{reply}'")
        order[rank], last[line.session] = line, rank
    return [order[rank] for rank in range(len(due))]


def replayed(lines, printed, service):
    """A run of a script's calls on a service in the order of the printed ranks."""
    run = Run(service)
    for line in by_rank(lines, printed):
        run.make(line)
    return run


def asked(service, identifiers):
    """A run of one session that asks a service for the attributes and the bytes of the keys under these identifiers."""
    run = Run(service)
    for identifier in identifiers:
        for command in ("attributes", "export"):
            run.make(Line(1, command, [("key", f"#{identifier:x}")], {}))
    return run


def run_with_changes(lines, service):
    """A run of these lines in their order; and what stands in the store's cells at first and after each change of them."""
    run, states = Run(service), [list(service.cells)]
    for line in lines:
        run.make(line)
        if run.service.cells != states[-1]:
            states.append(list(run.service.cells))
    return run, states
