"""Reads a script: what it boots and calls, or its first bad line (docs/formats/script.md)."""

import re
from dataclasses import dataclass, field

from . import modules

MOST_SCRIPT_BYTES = 16777216
MOST_ID = 4294967295
MOST_MOMENT = 9007199254740991
MOST_WORKERS = 64
MOST_OBSERVERS = 8
MOST_WATCHED = 16


@dataclass(frozen=True)
class Scale:
    """How large what a device keeps may grow."""

    image_modules: int
    kept_weight: int
    data_weight: int
    units: int


SCALES = {
    "small": Scale(image_modules=8, kept_weight=65536, data_weight=1024, units=32),
    "standard": Scale(image_modules=64, kept_weight=16777216, data_weight=16384, units=1024),
}
LEVELS = ("none", "low", "medium", "high", "rollback")
REASONS = ("unknown", "native_crash", "health_check", "app_crash", "app_not_responding")

BLOCK_LINES = ("file", "text", "remove", "seal", "done")
CALL_LINES = (
    *("submit", "group", "ready", "abort", "success", "revert", "commit", "state"),
    *("put", "drop", "get", "watch", "report"),
)
OTHER_LINES = ("scale", "image", "pre", "observer", "nomount", "mount", "module", "boot", "cut", "lane", "end", "then")

# The lines that the program doesn't read yet. A further image and a submit with rollback stand in `is_not_yet`.
NOT_YET = (
    *("observer", "nomount", "mount", "cut", "lane", "end", "then"),
    *("group", "revert", "commit", "put", "drop", "get", "watch", "report"),
)

# How many words a line may have, the first one counted.
MANY = 1 << 32
WORD_COUNTS = {
    **dict.fromkeys(("scale", "image", "pre", "module", "ready", "abort", "commit", "state", "remove"), (2, 2)),
    **dict.fromkeys(("boot", "success", "file", "drop", "get", "observer", "nomount", "mount"), (3, 3)),
    **dict.fromkeys(("submit", "put", "report"), (4, 4)),
    **dict.fromkeys(("seal", "done", "revert"), (1, 1)),
    "text": (2, MANY),
    "group": (3, MANY),
    "watch": (5, 4 + MOST_WATCHED),
}


class BadLine(Exception):
    """Why the script is refused: the number of its first bad line, and the reason in words."""

    def __init__(self, number, why):
        super().__init__(f"script line {number} {why}")


class Bad(Exception):
    """Why one line is bad."""


@dataclass(frozen=True)
class Observer:
    """Somebody who may act at a trigger; the level is one of LEVELS."""

    name: str
    level: str


@dataclass
class Call:
    """One call: the first word of its line, and what the other words stand for."""

    word: str
    arguments: tuple


@dataclass
class Boot:
    """A boot with all that it is ordered to do, and the calls that follow it."""

    fingerprint: str
    image: dict
    observers: list
    unmounted: set
    moment: int
    calls: list = field(default_factory=list)


@dataclass
class Script:
    scale: Scale
    boots: list


@dataclass
class Block:
    """A module block that isn't done yet."""

    label: str
    line: int
    files: dict


def read_script(script):
    """The script that the bytes are. Raises BadLine where they are none."""
    if len(script) > MOST_SCRIPT_BYTES:
        raise BadLine(0, "too-long")
    reader = Reader()
    for number, line in enumerate(lines_of(script), start=1):
        try:
            reader.take(number, line)
        except Bad as bad:
            raise BadLine(number, bad) from None
    if reader.scale is None:
        raise BadLine(1, "unended")
    if reader.block is not None:
        raise BadLine(reader.block.line, "unended")
    return Script(reader.scale, reader.boots)


def lines_of(script):
    """The lines without their ends."""
    lines = script.split(b"\n")
    last = lines.pop()
    lines = [line.removesuffix(b"\r") for line in lines]
    return lines + [last] if last else lines


class Reader:
    """What the lines so far say. Each method that is named after a line reads that line."""

    def __init__(self):
        self.scale = None
        self.fingerprint = None
        self.image = {}
        self.observers = []
        self.unmounted = set()
        self.labels = {}
        self.block = None
        self.boots = []
        self.number = 0
        self.line = ""

    def take(self, number, line):
        """Reads one line, with the checks in their order."""
        first = line.lstrip(b" ")[:1]
        if first in (b"", b"#"):
            return
        if re.fullmatch(rb"[\x20-\x7e]*", line) is None:
            raise Bad("bad-byte")
        self.number = number
        self.line = line.decode("ascii")
        words = [word for word in self.line.split(" ") if word]
        word = words[0]
        if word not in BLOCK_LINES + CALL_LINES + OTHER_LINES:
            raise Bad("unknown-word")
        if self.is_not_yet(words):
            raise Bad("not-yet")
        if not self.may_stand(word):
            raise Bad("bad-place")
        least, most = WORD_COUNTS[word]
        if not least <= len(words) <= most:
            raise Bad("words")
        if word in CALL_LINES:
            self.call(words)
        else:
            getattr(self, "line_" + word)(words)

    def is_not_yet(self, words):
        if words[0] == "image":
            return self.fingerprint is not None
        if words[0] == "submit":
            return words[2:3] == ["rollback"]
        return words[0] in NOT_YET

    def may_stand(self, word):
        if self.scale is None:
            return word == "scale"
        if self.block is not None:
            return word in BLOCK_LINES
        if word in CALL_LINES:
            return len(self.boots) > 0
        if word in ("pre", "boot"):
            return self.fingerprint is not None
        return word not in BLOCK_LINES and word != "scale"

    # Lines outside blocks

    def line_scale(self, words):
        self.scale = SCALES[one_of(words, 2, tuple(SCALES))]

    def line_image(self, words):
        self.fingerprint = read_word(words, 2, r"[\x21-\x7e]{1,64}")
        self.image = {}

    def line_pre(self, words):
        module = self.module_of(read_part(words, 2), 2)
        if module.name is None:
            raise Bad(f"bad-module {module.fault}")
        if module.name in self.image:
            raise Bad("twice")
        if len(self.image) == self.scale.image_modules:
            raise Bad("full")
        self.image[module.name] = module

    def line_observer(self, words):
        name = read_name(words, 2)
        level = one_of(words, 3, LEVELS)
        if any(observer.name == name for observer in self.observers):
            raise Bad("twice")
        if len(self.observers) == MOST_OBSERVERS:
            raise Bad("full")
        self.observers.append(Observer(name, level))

    def line_nomount(self, words):
        self.unmounted.add(read_mount(words))

    def line_mount(self, words):
        self.unmounted.discard(read_mount(words))

    def line_module(self, words):
        self.block = Block(label=read_name(words, 2), line=self.number, files={})

    def line_boot(self, words):
        moment = read_number(words, 2, 0, MOST_MOMENT)
        read_number(words, 3, 1, MOST_WORKERS)
        self.boots.append(
            Boot(self.fingerprint, dict(self.image), list(self.observers), set(self.unmounted), moment)
        )

    # Lines of blocks

    def line_file(self, words):
        path = read_path(words, 2)
        self.write(path, read_hex(words, 3))

    def line_text(self, words):
        path = read_path(words, 2)
        content = re.fullmatch(r" *text +[^ ]+ ?(.*)", self.line)[1]
        self.write(path, content.encode("ascii"))

    def write(self, path, content):
        files = self.block.files
        if path not in files and len(files) == modules.MOST_FILES:
            raise Bad("full")
        if len(content) > modules.MOST_FILE_BYTES:
            raise Bad("full")
        files[path] = content

    def line_remove(self, words):
        self.block.files.pop(read_path(words, 2), None)

    def line_seal(self, words):
        self.write(modules.LISTING, modules.listing_of(self.block.files))

    def line_done(self, words):
        self.labels[self.block.label] = modules.Module(self.block.files)
        self.block = None

    # Lines of calls

    def call(self, words):
        arguments = getattr(self, "call_" + words[0])(words)
        self.boots[-1].calls.append(Call(words[0], arguments))

    def call_submit(self, words):
        session = read_id(words, 2)
        kind = one_of(words, 3, ("plain", "rollback"))
        module = self.module_of(read_part(words, 4), 4)
        return session, (), kind, (module,)

    def call_group(self, words):
        session = read_id(words, 2)
        kind = one_of(words, 3, ("plain", "rollback"))
        children = []
        parts = []
        for place in range(4, len(words) + 1):
            child, colon, part = words[place - 1].partition(":")
            if not colon or not is_number(child, 0, MOST_ID):
                raise Bad(f"bad-word {place}")
            children.append(int(child))
            parts.append(part_of(part, place))
        submitted = [self.module_of(part, place) for place, part in enumerate(parts, start=4)]
        return session, tuple(children), kind, tuple(submitted)

    def call_ready(self, words):
        return (read_id(words, 2),)

    call_abort = call_commit = call_state = call_ready

    def call_success(self, words):
        return read_moment(words, 2), read_id(words, 3)

    def call_revert(self, words):
        return ()

    def call_put(self, words):
        arguments = read_name(words, 2), read_name(words, 3), read_hex(words, 4)
        if len(arguments[2]) > modules.MOST_FILE_BYTES:
            raise Bad("full")
        return arguments

    def call_drop(self, words):
        return read_name(words, 2), read_name(words, 3)

    call_get = call_drop

    def call_watch(self, words):
        moment = read_moment(words, 2)
        observer = read_name(words, 3)
        duration = read_moment(words, 4)
        names = [read_name(words, place) for place in range(5, len(words) + 1)]
        return moment, observer, duration, tuple(names)

    def call_report(self, words):
        return read_moment(words, 2), read_name(words, 3), one_of(words, 4, REASONS)

    def module_of(self, part, place):
        """The module that a part stands for: a module of the short form, or a label."""
        if isinstance(part, modules.Module):
            return part
        if part not in self.labels:
            raise Bad(f"no-label {place}")
        return self.labels[part]


# Words. Each takes the words of the line and the place of the one that it reads, counted from 1.


def read_word(words, place, pattern):
    if re.fullmatch(pattern, words[place - 1]) is None:
        raise Bad(f"bad-word {place}")
    return words[place - 1]


def one_of(words, place, choices):
    if words[place - 1] not in choices:
        raise Bad(f"bad-word {place}")
    return words[place - 1]


def is_number(word, least, most):
    return re.fullmatch("0|[1-9][0-9]{0,19}", word) is not None and least <= int(word) <= most


def read_number(words, place, least, most):
    if not is_number(words[place - 1], least, most):
        raise Bad(f"bad-word {place}")
    return int(words[place - 1])


def read_id(words, place):
    return read_number(words, place, 0, MOST_ID)


def read_moment(words, place):
    return read_number(words, place, 0, MOST_MOMENT)


def read_name(words, place):
    return read_word(words, place, modules.NAME)


def read_path(words, place):
    if not modules.is_path(words[place - 1]):
        raise Bad(f"bad-word {place}")
    return words[place - 1]


def read_hex(words, place):
    word = read_word(words, place, "-|([0-9a-fA-F]{2})+")
    return b"" if word == "-" else bytes.fromhex(word)


def read_versioned(word, place):
    """The name and the version of `NAME@VERSION`."""
    name, _, version = word.partition("@")
    if not modules.is_name(name) or not is_number(version, 1, modules.MOST_VERSION):
        raise Bad(f"bad-word {place}")
    return name, int(version)


def read_mount(words):
    """A module that mounts or doesn't: its place, name and version."""
    return one_of(words, 2, ("data", "pre")), *read_versioned(words[2], 3)


def read_part(words, place):
    return part_of(words[place - 1], place)


def part_of(word, place):
    """The module of the short form, or the label, that a part is."""
    if not word.startswith("$"):
        return modules.short_form(*read_versioned(word, place))
    if not modules.is_name(word[1:]):
        raise Bad(f"bad-word {place}")
    return word[1:]
