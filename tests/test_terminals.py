"""`connect` as people use it, at pseudo-terminals."""

import time

from support.live_lines import PLAN
from support.screens import CONTROL_C, CONTROL_D, Screen, UP
from support.serving_trials import Served
from support.trials import TOP


def terminal(served: Served, name: str, home: str) -> Screen:
    """A terminal of this user, who is at its prompt."""
    it = Screen([f"{TOP}/connect", served.folder, name], HOME=home)
    assert it.until(f"{name}> ").replace("\r", "") == f"You are {name}. help lists the verbs, Ctrl-D ends.\n{name}> "
    return it


def test_keys_do_what_they_say() -> None:
    """Tab, arrows, Ctrl-C and Ctrl-D, and answers that come while somebody types."""
    with Served(PLAN) as it:
        with terminal(it, "ann", it.room.name) as ann:
            ann.line("jo\t0 7", ["config -"])
            ann.line("load 0 hel\ts", ["boot 0 17"])
            assert "load 0 hello.s" in ann.shown
            ann.line("coll\t0", ['collect 0 68656c6c6f0a  "hello\\n"'])
            ann.line(
                UP,
                [
                    "collect 0 -",
                    "  (no byte has come: is the host joined with a node (join), and what does the node do " "(look)?)",
                ],
            )
            ann.press("look 0")
            ann.until("look 0")
            # Python may see Ctrl-C only with the next key if it comes while the key before is still being handled
            time.sleep(0.5)
            ann.press(CONTROL_C)
            ann.until("ann> ")
            ann.line("rest", ["rest quiet"])
            assert "look 0 " not in ann.shown
            ann.press("re")
            ann.until("re")
            assert it.ask("ann", "look 0") == "look 0 idle overruns 0 0 0 0"
            assert ann.until("re").replace("\r", "") == "look 0 idle overruns 0 0 0 0\nann> re"
            ann.line("st", ["rest quiet"])
            ann.press(CONTROL_D)
            assert ann.end() == ("\n", 0)
        with terminal(it, "ann", it.room.name) as ann:
            ann.line(UP, ["rest quiet"])
            ann.press("quit\r")
            assert ann.end()[1] == 0
        with terminal(it, "operator", it.room.name) as operator:
            operator.press("!wo\t\r")
            operator.until("!words 0:2c7 1:0 ")
            operator.until("operator> ")
            operator.line("rest\ta\t", ["!restart ann ok"])
            # serve asks by lines of the operator too, so the number may be any
            operator.press("restart zed\r")
            operator.until("! error ")
            operator.until(" user\r\n  (there is no such user: users lists them)")
        assert it.stop()[0] == 0


def test_farm_goes_away() -> None:
    """Ctrl-C while an answer is due, a farm that is stopped, and one that is killed: the terminal says so, and ends."""
    with Served(PLAN) as it:
        with terminal(it, "ann", it.room.name) as ann, terminal(it, "bob", it.room.name) as bob:
            with it.held_live():
                ann.press("rest\r")
                ann.until("rest\r\n")
                time.sleep(0.1)
                ann.press(CONTROL_C)
                ann.until("ann> ")
            ann.until("rest quiet")
            bob.press("lo")
            it.stop()
            for one in (ann, bob):
                told, status = one.end()
                assert (
                    told.count("note: the farm is stopped\n"),
                    "error: the farm has ended the connection" in told,
                    status,
                ) == (1, True, 3)
            assert "Traceback" not in ann.shown + bob.shown
        it.start()
        with terminal(it, "ann", it.room.name) as ann:
            it.process.kill()
            told, status = ann.end()
            assert ("error: the farm has ended the connection" in told, status) == (True, 3)


def test_late_answers_are_waited_for() -> None:
    """A line that isn't answered within half a second says so, once."""
    with Served(PLAN) as it, terminal(it, "ann", it.room.name) as ann:
        with it.held_live():
            ann.press("rest\r")
            ann.until("rest\r\n(waiting)\r\nann> ")
            ann.press("\r")
            ann.until("ann> ")
        assert "(waiting)" not in ann.until("rest quiet")
        ann.line("rest", ["rest quiet"])
        assert it.stop()[0] == 0
