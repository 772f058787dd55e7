"""How random occam programs choose by ALT so that their answer is one: results are added up, a server answers each client, or one guard
alone can be ready."""
from dataclasses import dataclass

from occam.components import Components
from occam.pieces import WHOLE
from occam.values import INT


@dataclass
class Multiplexer:
    """Several that send and one that adds up: the names of the channels, of the index of one that sends, of a turn, of a message, of the
    sum and of what is left, how many send, and how many messages each."""

    channels: str
    index: str
    turn: str
    value: str
    sum: str
    live: str
    count: int
    rounds: int

    @property
    def heard(self) -> list[str]:
        """The tokens of an input from the one with the index."""
        return [self.channels, "[", self.index, "]", "?", self.value]


@dataclass
class Server:
    """Who answers clients: the names of the channels of questions and of answers, of the index of a client, of a turn, of a question and
    of how many clients there are still, and how many there are."""

    ask: str
    answer: str
    index: str
    turn: str
    value: str
    live: str
    count: int


class Choices(Components):
    """The part of a writer of programs that is about ALT."""

    def alt(self) -> list[str]:
        return self.random.choice((["ALT"], ["ALT"], ["PRI", "ALT"]))

    # the operators by one of which each message is added, so that their order doesn't matter
    adding: tuple[str, ...] = ("PLUS", "MINUS")

    def total(self, total: str, x: str) -> list[str]:
        """The tokens of an assignment that adds a message."""
        return [total, ":=", total, self.random.choice(self.adding), *self.over(x)]

    # -- multiplexers

    def multiplexer(self, indent: int) -> None:
        """Puts several that send and one that adds up what comes."""
        c, i, j, x, total, live = self.new_names(6)
        count, rounds = self.count(), self.count()
        way = self.random.choice(("count", "left", "end"))
        self.adding = self.random.choice((("PLUS", "MINUS"), ("><",)))
        span = (0, 1000) if way == "end" else None
        value = self.over((i, (0, 255)), (j, (0, 255)), span=span)
        self.put(indent, ["[", str(count), "]", "CHAN", "OF", INT, c, ":"])

        def senders(inner: int) -> None:
            self.put(inner, self.replicator(i, count))
            self.puts(
                inner + 2,
                f"""
SEQ
  SEQ {j} = 0 FOR {rounds}
    {c} [ {i} ] ! $value
""",
                value=value,
            )
            if way == "end":
                self.put(inner + 4, [c, "[", i, "]", "!", *self.constant(-1).tokens])

        def receiver(inner: int) -> None:
            self.puts(
                inner,
                f"""
INT {x} , {total} , {live} :
[ {count} ] INT {live}.of :
SEQ
  {total} := 0
  SEQ {j} = 0 FOR {count}
    {live}.of [ {j} ] := {rounds}
""",
            )
            put = {"count": self.by_count, "left": self.by_left, "end": self.by_end}[way]
            put(inner + 2, Multiplexer(c, i, j, x, total, live, count, rounds))
            self.shown(inner + 2, [total])

        self.components(indent, [senders, receiver])

    def by_count(self, indent: int, its: Multiplexer) -> None:
        """As many messages as are sent."""
        count, j = its.count, its.turn
        self.put(indent, ["SEQ", j, "=", "0", "FOR", str(count * its.rounds)])
        if self.chance(0.5):
            self.put(indent + 2, [*self.alt(), its.index, "=", "0", "FOR", str(count)])
            self.put(indent + 4, its.heard)
            self.put(indent + 6, self.total(its.sum, its.value))
            return
        self.put(indent + 2, self.alt())
        conditions: tuple[list[str], ...] = ([], [], ["TRUE", "&"], [j, ">=", "0", "&"])
        for at in self.random.sample(range(count), count):
            condition = self.random.choice(conditions)
            self.put(indent + 4, [*condition, its.channels, "[", str(at), "]", "?", its.value])
            self.put(indent + 6, self.total(its.sum, its.value))
        if self.chance(0.3):
            self.put(indent + 4, [j, "<", "0", "&", "SKIP"])
            self.put(indent + 6, ["STOP"])

    def by_left(self, indent: int, its: Multiplexer) -> None:
        """Guards that close when their channel has sent all."""
        self.put(indent, ["SEQ", its.turn, "=", "0", "FOR", str(its.count * its.rounds)])
        self.puts(
            indent + 2,
            f"""
$alt {its.index} = 0 FOR {its.count}
  ( $left > 0 ) & $heard
    SEQ
      $total
      $left := $left - 1
""",
            alt=self.alt(),
            left=[f"{its.live}.of", "[", its.index, "]"],
            heard=its.heard,
            total=self.total(its.sum, its.value),
        )

    def by_end(self, indent: int, its: Multiplexer) -> None:
        """Until each has sent its end."""
        self.put(indent, [its.live, ":=", str(its.count)])
        self.puts(
            indent,
            f"""
WHILE {its.live} > 0
  $alt {its.index} = 0 FOR {its.count}
    $heard
      IF
        {its.value} < 0
          {its.live} := {its.live} - 1
        TRUE
          $total
""",
            alt=self.alt(),
            heard=its.heard,
            total=self.total(its.sum, its.value),
        )

    # -- servers

    def server(self, indent: int) -> None:
        """Puts clients, and a server that answers each of them."""
        ask, answer, i, j, x, a, live = self.new_names(7)
        count, rounds = self.count(), self.count()
        question, next_one = self.over((j, (0, 255)), (i, (0, 255)), span=(0, 1000)), self.over(x, x + ".old")
        self.put(indent, ["[", str(count), "]", "CHAN", "OF", INT, ask, ",", answer, ":"])
        self.put(indent, ["[", str(count), "]", INT, a, ":"])
        self.put(indent, ["SEQ"])

        def clients(inner: int) -> None:
            self.put(inner, self.replicator(i, count))
            self.puts(
                inner + 2,
                f"""
INT {x} , {x}.old :
SEQ
  {x}.old := {i}
  SEQ {j} = 0 FOR {rounds}
    SEQ
      {ask} [ {i} ] ! $question
      {answer} [ {i} ] ? {x}
      {x}.old := $next
  {ask} [ {i} ] ! MINUS 1
  {a} [ {i} ] := {x}.old
""",
                question=question,
                next=next_one,
            )

        def serves(inner: int) -> None:
            self.serves(inner, Server(ask, answer, i, j, x, live, count))

        self.components(indent + 2, self.random.sample([clients, serves], 2))
        self.puts(indent + 2, f"SEQ {i} = 0 FOR {count}")
        self.shown(indent + 4, [a, "[", i, "]"])

    def serves(self, indent: int, its: Server) -> None:
        """Puts a server, whose guards close when their client has ended."""
        ask, answer, i, x, live = its.ask, its.answer, its.index, its.value, its.live
        self.puts(
            indent,
            f"""
INT {x} , {live} :
[ {its.count} ] BOOL {live}.is :
SEQ
  {live} := {its.count}
  SEQ {its.turn} = 0 FOR {its.count}
    {live}.is [ {its.turn} ] := TRUE
  WHILE {live} <> 0
    $alt {i} = 0 FOR {its.count}
      {live}.is [ {i} ] & {ask} [ {i} ] ? {x}
        IF
          {x} >= 0
            {answer} [ {i} ] ! $reply
          {x} < 0
            SEQ
              {live}.is [ {i} ] := FALSE
              {live} := {live} - 1
""",
            alt=self.alt(),
            reply=self.over(x),
        )

    def free_farm(self, indent: int) -> None:
        """Puts a farm whose workers ask for work when they have none."""
        ask, work, w, i, j, x, total = self.new_names(7)
        count, jobs = self.count(), self.count() + self.count()
        value = self.over((j, (0, 255)), span=(0, 1000))
        self.put(indent, ["[", str(count), "]", "CHAN", "OF", INT, ask, ",", work, ":"])

        def workers(inner: int) -> None:
            self.put(inner, self.replicator(w, count))
            self.puts(
                inner + 2,
                f"""
INT {x} :
SEQ
  {ask} [ {w} ] ! 0
  {work} [ {w} ] ? {x}
  WHILE {x} >= 0
    SEQ
      {ask} [ {w} ] ! $done
      {work} [ {w} ] ? {x}
""",
                done=self.over((x, (0, 1000))),
            )

        def master(inner: int) -> None:
            self.puts(
                inner,
                f"""
INT {x} , {total} :
SEQ
  {total} := 0
  SEQ {j} = 0 FOR {jobs + count}
    $alt {i} = 0 FOR {count}
      {ask} [ {i} ] ? {x}
        SEQ
          {total} := {total} PLUS {x}
          IF
            {j} < {jobs}
              {work} [ {i} ] ! $value
            TRUE
              {work} [ {i} ] ! MINUS 1
""",
                alt=self.alt(),
                value=value,
            )
            self.shown(inner + 2, [total])

        self.components(indent, [workers, master])

    # -- one guard alone

    def chooses(self, indent: int) -> None:
        """Puts an ALT of conditions, of which the first that is TRUE is taken, with inputs that aren't looked at."""
        before, ends = set(self.assigned), []
        closed = [it for it in self.channels["in"] if self.can_hear(it.kind)]
        self.put(indent, self.alt())
        choices = self.random.choice((1, 2, 2, 3, 4))
        for choice in range(choices):
            self.assigned = set(before)
            is_last = choice == choices - 1
            condition = self.bool_part(self.depth).tokens
            if is_last and not (self.is_risky and self.chance(0.4)):
                condition = self.random.choice((["TRUE"], ["1", "=", "1"]))
            if closed and self.chance(0.3):
                name, kind, _ = self.random.choice(closed)
                self.put(indent + 2, ["FALSE", "&", name, "?", *self.can_hear(kind)])
                self.put(indent + 4, ["STOP"])
            self.put(indent + 2, [*condition, "&", "SKIP"])
            self.process(indent + 4, 20, 5)
            ends.append(self.assigned)
        self.assigned = set.intersection(*ends)

    def can_hear(self, kind: str) -> list[str]:
        """The name of a variable into which a message may come, if there is one."""
        return [it.name for it in self.visible(kind) if self.can_change(it) and it.span == WHOLE][:1]

    def not_yet(self, indent: int) -> None:
        """Puts an ALT by whose input nothing can come yet, since it is asked for only then."""
        c, go, x, z = self.new_names(4)
        value, is_first = self.int_part(1).tokens, self.chance(0.5)
        self.puts(indent, f"CHAN OF INT {c} , {go} :")

        def asked(inner: int) -> None:
            self.puts(
                inner,
                f"""
INT {x} :
SEQ
  {go} ? {x}
  {c} ! $new
""",
                new=self.over(x),
            )

        def asks(inner: int) -> None:
            guards = [([c, "?", z], ["STOP"]), (["TRUE", "&", "SKIP"], [go, "!", *value])]
            self.put(inner, [INT, z, ":"])
            self.put(inner, ["SEQ"])
            self.put(inner + 2, self.alt())
            for guard, process in guards[:: 1 if is_first else -1]:
                self.put(inner + 4, guard)
                self.put(inner + 6, process)
            self.put(inner + 2, [c, "?", z])
            self.shown(inner + 2, [z])

        division = self.divided(2)
        # what is sent is read by who asks
        division.variables = {it: 1 for it in division.variables}
        self.components(indent, [asked, asks], division)
