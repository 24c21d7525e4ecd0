"""Breaks one line of a script. What comes of it is for the model to say; some of these changes do no harm."""

WORDS = (
    *("", "0", "00", "01", "-1", "+1", "1.0", "65", "4294967295", "4294967296", "9007199254740991"),
    *("9007199254740992", "99999999999999999999999", "a", "a-b", "n" * 64, "n" * 65, "$", "$m", "$nolabel", "$a-b"),
    *("@", "a@", "@1", "a@0", "a@01", "a@1@2", "a@9223372036854775807", "a@9223372036854775808", "a-b@1"),
    *("plain", "rollback", "Plain", "small", "..", "a/..", "./a", "/a", "a/", "a//b", "p/" * 64, "p/" * 63 + "pp"),
    *("7", "7f", "7F0", "7g", "--", "-", "#"),
)
LINES = (
    *("observer dog low", "nomount data a@1", "mount pre a@1", "cut 1 0", "lane 1", "end", "then", "group 1 plain"),
    *("revert", "commit 1", "put a k 00", "drop a k", "get a k", "watch 0 dog 0 a", "report 0 a unknown"),
    *("image Q", "image", "submit 1 rollback a@2", "submit 1 rollback", "submit", "ready", "boot", "boot 0 65"),
    *("boot 0 0", "scale small", "scale", "Scale small", "Boot 0 1", "boots 0 1", "module m", "module", "module a-b"),
    *("file a 00", "text a b", "remove a", "seal", "done", "seal now", "done now", "pre a@1", "pre $nolabel"),
    *("pre a@0", "submit 1 plain $nolabel", "submit x plain $nolabel", "submit 1 Plain $nolabel", "state 1 2"),
    *("success 1", "success x y", "observer", "text", "file", "file a", "file ../a 7f4", "file a 7f4", "remove .."),
)
BYTES = ("\t", "\x00", "\x1f", "\x7f", "\x80", "\xff", "\r", "\x0b")


def broken(dice, lines):
    (change,) = dice.choices(list(CHANGES), CHANGES.values())
    return change(dice, list(lines))


def word_changed(dice, lines):
    at = dice.randrange(len(lines))
    words = lines[at].split(" ")
    words[dice.randrange(len(words))] = dice.choice(WORDS)
    lines[at] = " ".join(words)
    return lines


def word_bent(dice, lines):
    """Spells one word in another way, mostly one that isn't allowed."""
    at = dice.randrange(len(lines))
    words = lines[at].split(" ")
    place = dice.randrange(len(words))
    word = words[place]
    longer = ("0" + word, "+" + word, "-" + word, "$" + word, word + ".", word + "0", word + "@1", word * 2)
    other = (word.swapcase(), word[1:], word[:-1], word.replace("@", "@0"), word.replace("@", "@@"))
    words[place] = dice.choice(longer + other)
    lines[at] = " ".join(words)
    return lines


def line_added(dice, lines):
    lines.insert(dice.randint(0, len(lines)), dice.choice(LINES))
    return lines


def byte_added(dice, lines):
    at = dice.randrange(len(lines))
    place = dice.randint(0, len(lines[at]))
    lines[at] = lines[at][:place] + dice.choice(BYTES) + lines[at][place:]
    return lines


def returns_added(dice, lines):
    lines[dice.randrange(len(lines))] += dice.choice(("\r", "\r\r"))
    return lines


def word_dropped(dice, lines):
    at = dice.randrange(len(lines))
    words = lines[at].split(" ")
    del words[dice.randrange(len(words))]
    lines[at] = " ".join(words)
    return lines


def word_added(dice, lines):
    lines[dice.randrange(len(lines))] += " " + dice.choice(WORDS)
    return lines


def line_dropped(dice, lines):
    del lines[dice.choice((0, 1, 2, dice.randrange(len(lines)))) % len(lines)]
    return lines


def line_moved(dice, lines):
    line = lines.pop(dice.randrange(len(lines)))
    lines.insert(dice.randint(0, len(lines)), line)
    return lines


def line_repeated(dice, lines):
    at = dice.randrange(len(lines))
    lines.insert(at, lines[at])
    return lines


def end_dropped(dice, lines):
    return lines[: dice.randrange(len(lines))]


CHANGES = {
    **dict.fromkeys((word_changed, word_bent, line_added), 3),
    **dict.fromkeys((byte_added, returns_added, word_dropped, word_added), 1),
    **dict.fromkeys((line_dropped, line_moved, line_repeated, end_dropped), 1),
}
