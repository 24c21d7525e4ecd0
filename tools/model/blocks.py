"""Writes random module blocks: sound modules, and modules with each fault (docs/formats/module.md)."""

from . import modules

KEYS = (None, b"", b"one", b"two")
PATHS = ("a", "b", "a/b", "bin/run", "lib/codec", "A", "~", "apex_manifest.jso", "apex_digests/x", "z")

DEEP = "[" * 126 + "]" * 126
TOO_DEEP = "[" * 127 + "]" * 127

# Manifests that say NAME and VERSION in other ways than the plain one.
ODD_MANIFESTS = (
    ' { "version" : VERSION , "name" : "NAME" } ',
    '{"name":"NAME","version":VERSION,"more":[1,-2.5e3,{"name":"x"},null,true,"\\ud83d\\ude00"]}',
    '{"name":"other","name":"NAME","version":"x","version":VERSION}',
    '{"n\\u0061me":"NAME","version":VERSION}',
    '{"name":"NAME","version":VERSION,"more":1e300,"less":1e-400}',
    '{"name":"NAME","version":VERSION,"more":' + DEEP + "}",
    '{"name":"NAME",\n\t"version":VERSION\r\n}',
    '{"name":"NAME","version":VERSION,"more":"\u00e9"}',
)

BAD_MANIFESTS = (
    # These are no JSON, or no object.
    *("", "{", "[]", "7", '"NAME"', "null", "{}{}", '{"name":"NAME","version":VERSION,}'),
    *('{"name":"NAME" "version":VERSION}', '{"name":"NAME","version":0VERSION}', '{"name":"NAME","version":+VERSION}'),
    *('{"name":"NAME","version":1e400}', '{"name":"NAME","version":VERSION,"more":1e309}', "{'name':'NAME'}"),
    *('{"name":"NAME","version":NaN}', '{"name":"NAME","version":Infinity}', '\ufeff{"name":"NAME","version":VERSION}'),
    *('{"name":"\\ud800","version":VERSION}', '{"name":"NAME","version":VERSION,"more":["\\udc00"]}'),
    *('{"name":"NA\nME","version":VERSION}', '{"name":"\\x","version":VERSION}', '{"name":"NAME","version":VERSION}x'),
    '{"name":"NAME","version":VERSION,"more":' + TOO_DEEP + "}",
    # These lack a name, or have a bad one.
    *("{}", '{"version":VERSION}', '{"Name":"NAME","version":VERSION}', '{"name":null,"version":VERSION}'),
    *('{"name":1,"version":VERSION}', '{"name":"","version":VERSION}', '{"name":"a-b"}', '{"name":"NAME "}'),
    *('{"name":["NAME"],"version":VERSION}', '{"name":"NAME","version":VERSION,"name":0}', '{"name":"\u00e9"}'),
    '{"name":"' + "n" * 65 + '","version":VERSION}',
    # These lack a version, or have a bad one.
    *('{"name":"NAME"}', '{"name":"NAME","Version":VERSION}', '{"name":"NAME","version":"VERSION"}'),
    *('{"name":"NAME","version":VERSION.0}', '{"name":"NAME","version":VERSIONe0}', '{"name":"NAME","version":0}'),
    *('{"name":"NAME","version":-0}', '{"name":"NAME","version":-VERSION}', '{"name":"NAME","version":null}'),
    *('{"name":"NAME","version":9223372036854775808}', '{"name":"NAME","version":99999999999999999999999}'),
    *('{"name":"NAME","version":[VERSION]}', '{"name":"NAME","version":true}'),
)


class BlockWriter:
    """Writes the lines of one block, and keeps the files as they stand."""

    def __init__(self, dice, label):
        self.dice = dice
        self.lines = [f"module {label}"]
        self.files = {}

    def write(self, path, content):
        self.files[path] = content
        printable = all(0x20 <= byte <= 0x7E for byte in content)
        if printable and self.dice.random() < 0.8:
            self.lines.append(f"text {path} {content.decode('ascii')}")
        else:
            digits = content.hex() or "-"
            self.lines.append(f"file {path} {digits.upper() if self.dice.random() < 0.3 else digits}")

    def remove(self, path):
        self.files.pop(path, None)
        self.lines.append(f"remove {path}")

    def seal(self):
        self.files = modules.sealed(self.files)
        self.lines.append("seal")

    def done(self):
        return [*self.lines, "done"]


def module_block(dice, label, name, version, key, flaws):
    """The lines of a block whose module has these flaws, which are names of functions below."""
    writer = BlockWriter(dice, label)
    forms = ('{"name":"NAME","version":VERSION}',) * 6 + ODD_MANIFESTS
    if "bad_manifest" in flaws:
        forms = BAD_MANIFESTS
    writer.write(modules.MANIFEST, manifest(dice.choice(forms), name, version))
    if key is not None:
        writer.write(modules.KEY, key)
    for path in dice.sample(PATHS, dice.choice((0, 0, 1, 2, 3))):
        writer.write(path, payload(dice))
    if "no_manifest" in flaws:
        writer.remove(modules.MANIFEST)
    if "no_listing" not in flaws:
        writer.seal()
    for flaw in flaws:
        if flaw in AFTER_SEAL:
            AFTER_SEAL[flaw](writer)
    return writer.done()


def manifest(form, name, version):
    return form.replace("NAME", name).replace("VERSION", str(version)).encode("utf-8")


def payload(dice):
    return dice.choice((b"", b"abc", b" two  words ", bytes([0, 255, 10, 13]), b"x" * dice.randint(1, 300)))


# What is changed behind the seal


def add_unlisted(writer):
    writer.write(writer.dice.choice(("c", "0", "zz", "a/b/c")), b"new")


def remove_listed(writer):
    others = [path for path in writer.files if path not in (modules.MANIFEST, modules.LISTING)]
    if others:
        writer.remove(writer.dice.choice(others))


def change_listed(writer):
    others = [path for path in writer.files if path not in (modules.MANIFEST, modules.LISTING)]
    if others:
        path = writer.dice.choice(others)
        writer.write(path, writer.files[path] + b"!")


def change_manifest(writer):
    if modules.MANIFEST in writer.files:
        writer.write(modules.MANIFEST, writer.files[modules.MANIFEST] + b" ")


def remove_listing(writer):
    writer.remove(modules.LISTING)


def spoil_listing(writer):
    """Writes a listing that is nearly the right one."""
    right = modules.listing_of(writer.files)
    lines = right.splitlines(keepends=True)
    spoiled = (
        right[:-1],
        right + b"\n",
        right.upper(),
        right.replace(b"\n", b"\r\n"),
        right.replace(b" ", b"  ", 1),
        right.replace(b"a", b"g", 1),
        right[1:],
        b"".join(reversed(lines)),
        right + b"0" * 64 + b" apex_digests\n",
        b"".join(sorted([*lines, b"0" * 64 + b" apex_digests\n"], key=lambda line: line[65:])),
        right + b"0" * 64 + b" zz/../zz\n",
        right + b"0" * 64 + b" zz//zz\n",
        right + b"0" * 64 + b" zzz\n",
        b"0" * 64 + b" A.\n" + right,
        right + right,
        b"x\n",
        b"",
        b"0" * 64 + b" " + b"z" * 129 + b"\n",
        bytes([255]) * 3,
    )
    writer.write(modules.LISTING, writer.dice.choice(spoiled))


AFTER_SEAL = {
    "add_unlisted": add_unlisted,
    "remove_listed": remove_listed,
    "change_listed": change_listed,
    "change_manifest": change_manifest,
    "remove_listing": remove_listing,
    "spoil_listing": spoil_listing,
}
FLAWS = ("bad_manifest", "no_manifest", "no_listing", *AFTER_SEAL)


# Modules of a given weight


def heavy_block(label, name, version, weight):
    """The lines of a block whose sealed module has exactly this weight, in files of at most 1048576 bytes."""
    writer = BlockWriter(None, label)
    writer.files[modules.MANIFEST] = manifest('{"name":"NAME","version":VERSION}', name, version)
    payloads = -(-weight // modules.MOST_FILE_BYTES)
    for number in range(payloads):
        writer.files[f"heavy{number:02}"] = b""
    missing = weight - modules.Module(modules.sealed(writer.files)).weight
    for number in range(payloads):
        length = min(missing, modules.MOST_FILE_BYTES)
        writer.files[f"heavy{number:02}"] = b"h" * length
        missing -= length
    writer.lines += [f"text {path} {content.decode('ascii')}" for path, content in writer.files.items()]
    writer.lines.append("seal")
    return writer.done()
