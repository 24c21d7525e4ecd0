"""Plays a script and writes the text of its turns (docs/formats/text.md)."""

from dataclasses import dataclass

from .script import BadLine, read_script
from .world import World

DONE = 0
BAD_SCRIPT = 2


@dataclass(frozen=True)
class Outcome:
    """What a run leaves: its exit status, its text, and its line on standard error."""

    status: int
    text: str
    message: str


def play(script):
    try:
        read = read_script(script)
    except BadLine as bad:
        return Outcome(BAD_SCRIPT, "", f"apexplay: {bad}\n")
    return Outcome(DONE, "".join(line + "\n" for line in turn_lines(read)), "")


def turn_lines(script):
    world = World(script.scale)
    turns = 0
    for boot, order in enumerate(script.boots, start=1):
        yield from boot_lines(boot, world.boot(order))
        for step, call in enumerate(order.calls, start=1):
            yield f"{boot}.0.{step} {world.call(call)}"
        turns += 1 + len(order.calls)
    yield f"end {turns}"


def boot_lines(boot, reply):
    yield f"{boot}.0.0 boot {reply.number}"
    for session in reply.changed:
        yield " ".join(["session", str(session.id), session.state, *session.cause.split()])
    for name, chosen in reply.active.items():
        yield f"missing {name}" if chosen is None else f"active {name} {chosen[0]} {chosen[1]}"
    if reply.loop is not None:
        observer, ids = reply.loop
        yield " ".join(["loop", observer, *map(str, ids)])
