"""Who is answered of what by `live`: four users in one domain, sixteen domains that are alike, why a node waits, for each user of each
domain and through the sockets of `serve`, and a domain for which more lines wait than may."""

import re
from collections.abc import Callable, Iterator

from support.live_lines import FOUR, FOUR_PLAN, LOOP, PLAN, WORD, Live, plan_of_sixteen
from support.recorded import lab
from support.serving_trials import Client, Served
from support.trials import text_of

# The users of each domain of FOUR_PLAN.
DOMAINS = (("ann",), FOUR, ("fay",))
# How many lines may wait for a domain.
MOST_WAITING = 1024


def own_lines(place: int) -> list[tuple[str, str]]:
    """What the user at this place of the four asks of the own node and host, and what is answered. The boot message's code
    sends the host one byte: ajw 4, mint, ldc, outbyte, stopp."""
    host, byte = place, place + 5
    return [
        (f"config 01{place:02x}{4 + place:02x}03", "config -"),
        (f"poke {host} 80000100 1234567{place}", f"poke {host} 9"),
        (f"peek {host} 80000100", f"peek {host} 1234567{place}"),
        (f"boot {host} b424f24{byte:x}fe21f5", f"boot {host} 8"),
        (f"collect {host}", f"collect {host} {byte:02x}"),
    ]


def others_hosts(place: int) -> Iterator[tuple[str, str]]:
    """What the same user asks of the hosts of the other three, and of one that nobody has."""
    for host in (it for it in range(5) if it != place):
        yield f"write {host} 05", f"write {host} nosuch"
        yield f"collect {host}", f"collect {host} nosuch"


def users_told(live: Live, count: int) -> dict[str, tuple[int, int]]:
    """The lines and the events of each user, as the operator is told."""
    live.say("!users\n")
    return {row[1]: (int(row[2]), int(row[3])) for row in (live.hear().split() for _ in range(count))}


def test_four_users_have_their_own(folder: str) -> None:
    """Each line of each of four users in a domain is done in their own session, on their own host, and answered under their name."""
    with Live(FOUR_PLAN, ["--record", folder]) as live:
        rows = [own_lines(it) + list(others_hosts(it)) for it in range(4)]
        # a line of each in turn, and the last of them first
        for row in zip(*rows):
            for name, (line, answer) in reversed(list(zip(FOUR, row))):
                assert live.ask(f"{name} {line}") == f"{name} {answer}\n"
        told = users_told(live, 6)
        assert {it: told[it][0] for it in FOUR} == {it: len(rows[0]) for it in FOUR}
        assert live.end() == (0, [], [])
    record = text_of(f"{folder}/bob.replay")
    asked = re.findall(r"^(?:\d+ times )?0 (?:write|writes|read|reads) (\d) .*@(\w+) = ", record, re.M)
    assert {it for it in asked if it[0] != it[1]} == set()
    assert {it[0] for it in asked} == {"0", "1", "2", "3"}


def told_why(lines: list[str], before: str = "") -> str:
    """What an answer to `why` says, without the name and `why` that begin each line, and without its last line."""
    assert all(it.startswith(f"{before}why ") for it in lines)
    texts = [it.removeprefix(f"{before}why ").removesuffix("\n") + "\n" for it in lines]
    assert texts[-1] == "end\n"
    return "".join(texts[:-1])


def of_record(path: str) -> str:
    status, out, errors = lab(["why", path])
    assert (status, errors) == (0, "")
    return out


def has_come_to_differ(ask: Callable[[str, str], str]) -> None:
    """Lets the three domains do different things: ann's node waits for a word, two of the four have booted, fay does nothing."""
    for line in WORD:
        ask("ann", line)
    for place in (1, 3):
        for line, answer in own_lines(place):
            assert ask(FOUR[place], line) == answer


def test_why_is_of_the_own_domain(folder: str) -> None:
    """Whoever asks why is told of their own domain, as `lab why` says of its record: the first user of a domain and each other."""
    with Live(FOUR_PLAN, ["--record", folder]) as live:
        has_come_to_differ(lambda name, line: live.ask(f"{name} {line}").removeprefix(f"{name} ").removesuffix("\n"))
        told = []
        for users in DOMAINS:
            for name in users:
                assert live.ask(f"{name} rest") == f"{name} rest quiet\n"
                text = told_why(live.ask_why(f"{name} why"), f"{name} ")
                assert text == of_record(f"{folder}/{users[0]}.replay")
                assert text.startswith(f"after {users_told(live, 6)[name][1]} events\n")
                told.append(text)
        # three domains, three answers
        assert [told.index(it) for it in told] == [0, 1, 1, 1, 1, 5]
        assert told[1].count("\nnode ") == 4
        for name, nodes in (("ann", 1), ("dan", 4), ("eve", 4), ("fay", 1)):
            assert live.ask(f"{name} why {nodes}") == f"{name} why {nodes} nosuch\n"
            assert f"\nnode {nodes - 1} " in told_why(live.ask_why(f"{name} why {nodes - 1}"), f"{name} ")
        assert live.end() == (0, [], [])


# Waits for twenty bytes: ajw 4, ldlp 1, mint, ldnlp 4, ldc 20, and in at 8000004f; stopp.
TWENTY = "b41124f2542144f721f5"


def lines_of_alike(place: int) -> list[tuple[str, str]]:
    """What the user of one of sixteen domains asks, and is answered: all ask the same, but the word in memory, and how many of
    the twenty bytes come, are the user's own."""
    return [
        ("config 01000103", "config -"),
        (f"poke 0 80000100 123456{place:02x}", "poke 0 9"),
        ("peek 0 80000100", f"peek 0 123456{place:02x}"),
        (f"boot 0 {TWENTY}", "boot 0 11"),
        (f"write 0 {'05' * (place + 1)}", f"write 0 {place + 1}"),
        ("rest", "rest quiet"),
    ]


def asked_alike(live: Live, places: range, rows: Callable[[int], list[tuple[str, str]]]) -> None:
    """Lets the users of these domains ask lines, each of all users before the next."""
    for row in zip(*(rows(it) for it in places)):
        for place, (line, answer) in zip(places, row):
            assert live.ask(f"user-{place} {line}") == f"user-{place} {answer}\n"


def test_alike_domains_are_told_apart(folder: str) -> None:
    """Of sixteen domains that are alike but for a word and a count of bytes each user is answered, told why and recorded by the
    own domain; then some loop, and `rest` says of each whether its own does."""
    users, loops = range(16), range(0, 16, 3)
    with Live(plan_of_sixteen(), ["--record", folder]) as live:
        asked_alike(live, users, lines_of_alike)
        for it in users:
            told = told_why(live.ask_why(f"user-{it} why"), f"user-{it} ")
            waits = f"  The process at 8000004f waits in `in` for 20 bytes of link 0, of which {it + 1} came.\n"
            assert (waits in told, told) == (True, of_record(f"{folder}/user-{it}.replay"))
        again = [("restart", "restart ok"), ("config 01000103", "config -"), ("boot 0 b4600e", "boot 0 4")]
        asked_alike(live, loops, lambda _: again)
        asked_alike(live, users, lambda it: [("rest", "rest busy" if it in loops else "rest quiet")])
        assert live.end() == (0, [], [])


def heard_why(client: Client) -> str:
    """An answer to `why` at a socket."""
    told = [client.ask("why")]
    while told[-1] != "why end":
        told.append(client.hear())
    return told_why(told)


def test_why_is_of_the_own_domain_at_sockets() -> None:
    """The same of those who ask through the sockets of `serve`, two at a time."""
    with Served(FOUR_PLAN) as served:
        clients = {name: served.client(name) for users in DOMAINS for name in users}
        has_come_to_differ(lambda name, line: clients[name].ask(line))
        for users in DOMAINS:
            for name in users:
                assert clients[name].ask("rest") == "rest quiet"
        records = [of_record(f"{served.folder}/records/{users[0]}.replay") for users in DOMAINS]
        assert len(set(records)) == 3
        for users, record in zip(DOMAINS, records):
            for name in users:
                assert heard_why(clients[name]) == record
        assert served.stop()[0] == 0


def test_full_mailboxes_lose_nothing() -> None:
    """Of more lines than may wait for a domain that is far behind each is answered once: done, or `busy` by its number. Those
    of another domain are answered meanwhile."""
    given = 3 * MOST_WAITING
    with Live(PLAN) as live:
        for line in LOOP:
            assert live.ask(f"bob {line}").split()[1] == line.split()[0]
        live.say(
            "".join(f"{'bob' if it % 2 else 'cas'} why {200 + it % 2}\n" for it in range(given))
            + "ann look 0\n!words\n"
        )
        numbers: list[tuple[str, int]] = []
        others: list[str] = []
        done = 0
        while len(others) < 2 or done + len(numbers) < given:
            line = live.hear()
            if number := re.fullmatch(r"(bob|cas) error (\d+) busy\n", line):
                numbers.append((number[1], int(number[2])))
            elif line in ("bob why 201 nosuch\n", "cas why 200 nosuch\n"):
                done += 1
            else:
                others.append(line.split()[0])
        assert sorted(others) == ["!words", "ann"]
        assert (len(set(numbers)), done >= MOST_WAITING, done < given) == (len(numbers), True, True)
        # two lines of bob's came before
        bobs, cas = range(3, given // 2 + 3), range(1, given // 2 + 1)
        assert set(numbers) <= {*(("bob", it) for it in bobs), *(("cas", it) for it in cas)}
        # whoever was refused is answered once there is room
        assert live.ask("cas look 9") == "cas look 9 nosuch\n"
        assert live.end() == (0, [], [])
