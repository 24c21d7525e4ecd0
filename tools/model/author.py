"""Writes random scripts: few names, many sessions, and now and then a line that is bad."""

from . import modules
from .blocks import FLAWS, KEYS, heavy_block, module_block
from .breaking import broken

NAMES = ("a", "b", "B", "a.b", "_", "com.android.media")
UNKNOWN_NAMES = ("z", "a.", "A")
LABELS = ("m", "n", "m.2")
EDGE_IDS = (0, 1073741823, 1073741824, 1073741825, 2147483648, 4294967295)
MOST_MOMENT = 9007199254740991
# How far the moments of two boots lie from each other. Five boots of 150000 are just within the ten minutes.
STRIDES = ((0, 0), (0, 10), (0, 150000), (150000, 150000), (149999, 150001), (100000, 400000), (600000, 600001))


class Author:
    """Writes one script, and keeps in mind what it wrote."""

    def __init__(self, dice, scale):
        self.dice = dice
        self.scale = scale
        self.lines = [f"scale {scale}"]
        self.names = dice.sample(NAMES, dice.randint(1, 4))
        self.keys = {name: dice.choice(KEYS) if self.chance(0.3) else None for name in self.names}
        self.preinstalled = []
        self.greatest = dict.fromkeys(self.names, 1)
        self.labels = []
        self.ids = []
        self.unfinished = {}
        self.moment = dice.choice((0, 0, 1000, 700000, MOST_MOMENT - 1000000))
        self.stride = dice.choice(STRIDES)

    def chance(self, share):
        return self.dice.random() < share

    def image(self):
        self.lines.append(f"image {self.dice.choice(('P', 'S1B2', '~!', 'x' * 64))}")
        for name in self.names:
            if self.chance(0.93):
                self.pre(name)

    def pre(self, name):
        """A preinstalled module: mostly of the short form, else of a block, sound or not."""
        if name in self.preinstalled:
            return
        version = self.version(name)
        if self.keys[name] is None and self.chance(0.75):
            self.lines.append(f"pre {name}@{version}")
        else:
            flaws = [self.dice.choice(FLAWS[2:])] if self.chance(0.3) else []
            self.lines.append(f"pre ${self.block(name, version, self.keys[name], flaws)}")
        self.preinstalled.append(name)

    def version(self, name):
        """A version near the greatest one that was written for a name, mostly not below it."""
        version = max(1, self.greatest[name] + self.dice.choice((-2, -1, 0, 0, 0, 0, 1, 1, 1, 2)))
        self.greatest[name] = max(self.greatest[name], version)
        return version

    def block(self, name, version, key, flaws):
        label = self.dice.choice(LABELS)
        self.lines += module_block(self.dice, label, name, version, key, flaws)
        self.labels.append(label)
        return label

    def boot(self):
        shift = self.dice.randint(*self.stride)
        if self.chance(0.05):
            shift = self.dice.choice((-600001, -1, -self.moment, self.dice.randint(0, MOST_MOMENT)))
        self.moment = min(max(self.moment + shift, 0), MOST_MOMENT)
        self.lines.append(f"boot {self.moment} {self.dice.choice((1, 1, 2, 4, 64))}")

    def submit(self):
        name = self.dice.choice(self.names)
        if name in self.unfinished and self.chance(0.8):
            self.finish(name)
        part, faulty = self.part(name)
        id = self.fresh_id()
        self.lines.append(f"submit {id} plain {part}")
        accepted = not faulty and name in self.preinstalled and name not in self.unfinished
        if accepted:
            self.ids.append(id)
            self.unfinished[name] = id
        if self.chance(0.7 if accepted else 0.1):
            self.lines.append(f"ready {id}")
            if self.chance(0.4):
                self.boot()
                if self.chance(0.5):
                    self.lines.append(f"success {self.later()} {id}")

    def finish(self, name):
        """Ends the session of a name, so that another may be submitted."""
        id = self.unfinished.pop(name)
        if self.chance(0.3):
            self.lines.append(f"abort {id}")
            return
        if self.chance(0.8):
            self.lines.append(f"ready {id}")
        self.boot()
        self.lines.append(f"success {self.later()} {id}")

    def fresh_id(self):
        """The id of a submit: mostly one that isn't taken."""
        if self.ids and self.chance(0.06):
            return self.dice.choice(self.ids)
        if self.chance(0.04):
            return self.dice.choice(EDGE_IDS)
        return self.dice.randint(1, 40) if self.chance(0.3) else len(self.ids) + 100

    def some_id(self):
        """The id of another call: mostly that of a recent submit."""
        if not self.ids or self.chance(0.05):
            return self.dice.choice((*EDGE_IDS, 7))
        return self.dice.choice(self.ids[-3:] if self.chance(0.7) else self.ids)

    def part(self, name):
        """A part of a submit, mostly of this name, and whether it is likely to be refused for itself."""
        version = self.version(name)
        if self.labels and self.chance(0.1):
            return "$" + self.dice.choice(self.labels), True
        if self.chance(0.03):
            return f"{self.dice.choice(UNKNOWN_NAMES)}@{version}", True
        if self.chance(0.01):
            return f"{name}@{modules.MOST_VERSION - self.dice.randint(0, 1)}", False
        if self.chance(0.75 if self.keys[name] is None else 0.1):
            return f"{name}@{version}", self.keys[name] is not None
        key = self.keys[name] if self.chance(0.9) else self.dice.choice(KEYS)
        flaws = self.dice.sample(FLAWS, self.dice.choice((1, 1, 1, 2, 3))) if self.chance(0.4) else []
        return "$" + self.block(name, version, key, flaws), bool(flaws) or key != self.keys[name]

    def later(self):
        """The moment of a success."""
        return self.dice.choice((self.moment, 0, self.moment // 2, min(self.moment + 5000, MOST_MOMENT), MOST_MOMENT))

    def other_call(self):
        id = self.some_id()
        word = self.dice.choice(("ready", "ready", "abort", "success", "success", "state", "state", "state"))
        self.lines.append(f"success {self.later()} {id}" if word == "success" else f"{word} {id}")

    def pass_over(self):
        self.lines.append(self.dice.choice(("", "   ", "# a comment", "  #", "#\t\u00ff\r", "# submit 1 plain a@1")))

    def step(self):
        chance = self.dice.random()
        if chance < 0.36:
            self.submit()
        elif chance < 0.76:
            self.other_call()
        elif chance < 0.93:
            self.boot()
        elif chance < 0.96:
            self.pre(self.dice.choice(self.names))
        else:
            self.pass_over()


# Kinds of scripts


def ordinary(dice):
    author = Author(dice, dice.choice(("small", "small", "standard")))
    author.image()
    author.boot()
    for _ in range(dice.randint(6, 40)):
        author.step()
    return author.lines


def hurried(dice):
    """Many boots with little between them."""
    author = Author(dice, "small")
    author.image()
    for _ in range(dice.randint(5, 25)):
        author.boot()
        for _ in range(dice.choice((0, 0, 1, 2))):
            author.step()
    return author.lines


def judged(dice):
    """Many modules, most of them faulty in one way or another."""
    author = Author(dice, "standard")
    author.image()
    author.boot()
    for id in range(1, dice.randint(8, 24)):
        name = dice.choice(author.names)
        flaws = dice.sample(FLAWS, dice.choice((0, 1, 1, 1, 2)))
        label = author.block(name, author.version(name), author.keys[name], flaws)
        author.lines += [f"submit {id} plain ${label}", f"abort {id}"]
    if author.chance(0.1):
        author.lines.append(f"pre ${dice.choice(author.labels)}")
    author.boot()
    return author.lines


def crowded(dice):
    """More sessions than a small device may have."""
    author = Author(dice, "small")
    author.keys = dict.fromkeys(author.names)
    author.image()
    author.boot()
    for id in range(200, 200 + dice.randint(31, 36)):
        name = dice.choice(author.names)
        author.lines.append(f"submit {id} plain {name}@{author.version(name) + 9}")
        if author.chance(0.8):
            author.lines.append(f"abort {id}")
        elif author.chance(0.9):
            author.lines.append(f"ready {id}")
            author.boot()
            author.lines.append(f"success {author.later()} {id}")
        author.ids.append(id)
    for _ in range(dice.randint(3, 10)):
        author.step()
    return author.lines


def heavy(dice):
    """Modules that just fill a small device, or just don't."""
    author = Author(dice, "small")
    author.names = list(dice.sample(NAMES, 4))
    author.keys = dict.fromkeys(author.names)
    author.lines.append("image P")
    author.lines += [f"pre {name}@1" for name in author.names]
    author.boot()
    share = dice.choice((65536, 32768, 16384))
    for id in range(1, dice.randint(4, 14)):
        weight = share + dice.choice((-1, 0, 0, 0, 1))
        author.lines += heavy_block("h", dice.choice(author.names), dice.choice((2, 3)), weight)
        author.lines.append(f"submit {id} plain $h")
        author.ids.append(id)
        for _ in range(dice.choice((0, 1, 2))):
            author.other_call()
        if author.chance(0.4):
            author.lines.append(f"ready {id}")
            author.boot()
            author.lines.append(f"success {author.later()} {id}")
    return author.lines


def wide(dice):
    """Images with about as many modules as the scale allows, and modules with about as many files."""
    scale, most = dice.choice((("small", 8), ("standard", 64)))
    author = Author(dice, scale)
    author.lines.append("image P")
    count = most + dice.choice((-1, 0, 0, 1))
    author.lines += [f"pre n{number}@{dice.choice((1, 3, 9))}" for number in range(count)]
    author.boot()
    author.lines += ["module m", 'text apex_manifest.json {"name":"n0","version":9}']
    author.lines += [f"text f{number} {number}" for number in range(62 + dice.choice((-1, 0, 0, 0, 1)))]
    author.lines += [*dice.choice((["seal"], ["seal", "text f0 more"], ["text f0 more", "seal"])), "done"]
    author.lines += ["submit 1 plain $m", "ready 1"]
    author.lines += [f"submit {id} plain n{id}@{dice.choice((8, 9, 9, 10))}" for id in range(2, most + 2)]
    author.lines += [f"ready {id}" for id in range(2, most + 2) if author.chance(0.8)]
    author.boot()
    author.lines += [f"success {author.later()} {id}" for id in range(most + 2) if author.chance(0.5)]
    author.boot()
    return author.lines


def rare(dice):
    """What takes a long script."""
    return dice.choice((large_file, filled_standard, crowded_standard, too_long))(dice)


def large_file(dice):
    length = modules.MOST_FILE_BYTES + dice.choice((-1, 0, 1))
    line = dice.choice((f"file f {'7a' * length}", f"text f {'z' * length}"))
    manifest = 'text apex_manifest.json {"name":"a","version":2}'
    return ["scale standard", "image P", "pre a@1", "module m", manifest, line, "seal", "done"] + [
        *("boot 0 1", "submit 1 plain $m", "ready 1", "boot 1 1", "state 1")
    ]


def filled_standard(dice):
    block = heavy_block("m", "a", 2, 8388608 + dice.choice((0, 0, 1)))
    calls = ["submit 1 plain $m", "ready 1", "boot 1 1", "success 1 1", "submit 2 plain $m", "abort 2"]
    return ["scale standard", "image P", "pre a@1", *block, "boot 0 1", *calls, "submit 3 plain $m", "state 3"]


def crowded_standard(dice):
    lines = ["scale standard", "image P", "pre a@1", "boot 0 1"]
    for id in range(1, 1023 + dice.randint(0, 4)):
        lines += [f"submit {id} plain a@2", f"abort {id}"]
    return lines + ["submit 5000 plain a@2", "ready 5000", "boot 1 1"]


def too_long(dice):
    filler = "#" * (16777216 - len("scale small\n") + dice.choice((0, 1)))
    return ["scale small", filler]


KINDS = {ordinary: 540, hurried: 150, judged: 80, crowded: 80, heavy: 95, wide: 50, rare: 5}
FAULTY_SHARE = 0.07


def write_script(dice):
    """A random script, as bytes."""
    (kind,) = dice.choices(list(KINDS), KINDS.values())
    lines = kind(dice)
    if dice.random() < 0.3 and len(lines) < 200:
        lines = [respaced(dice, line) for line in lines]
    if dice.random() < FAULTY_SHARE:
        lines = broken(dice, lines)
    end = "\r\n" if dice.random() < 0.05 else "\n"
    last_end = end if dice.random() < 0.9 else ""
    return (end.join(lines) + last_end).encode("latin-1")


def respaced(dice, line):
    """The line with further spaces where they don't count, now and then."""
    if dice.random() < 0.9 or line.lstrip().startswith("text"):
        return line
    return "  " + line.replace(" ", "   ", 1) + " "
