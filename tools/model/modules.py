"""Modules: their files, manifest, key and listing, and what is wrong with one (docs/formats/module.md).

The files of a module are a dictionary from paths to bytes.
"""

import hashlib
import json
import math
import re
from dataclasses import dataclass
from functools import lru_cache

MANIFEST = "apex_manifest.json"
KEY = "apex_pubkey"
LISTING = "apex_digests"

MOST_FILES = 64
MOST_FILE_BYTES = 1048576
FILE_WEIGHT = 256
MOST_VERSION = 9223372036854775807
MOST_NESTING = 127

SEGMENT = re.compile(r"[\x21-\x2e\x30-\x7e]+")
NAME = re.compile(r"[A-Za-z0-9_.]{1,64}")
LISTING_LINE = re.compile(rb"([0-9a-f]{64}) (.*)", re.DOTALL)


class Fault(Exception):
    """What is wrong with a module, in the words of the text."""


def is_name(text):
    return NAME.fullmatch(text) is not None


def is_path(text):
    segments = text.split("/")
    return len(text) <= 128 and all(SEGMENT.fullmatch(part) and part not in (".", "..") for part in segments)


# Manifests


@dataclass(frozen=True)
class Number:
    """A number of a manifest, as it was written."""

    text: str


class Members(list):
    """The members of a JSON object, repeated ones included, in the order in which they were written."""


def number(text):
    if math.isinf(float(text)):
        raise ValueError("too large for a float")
    return Number(text)


def no_constant(text):
    raise ValueError(text + " is no JSON")


def is_plain(value, nesting=0):
    """Whether a value nests no deeper than is allowed, and whether its strings are whole characters."""
    if isinstance(value, str):
        return not any("\ud800" <= character <= "\udfff" for character in value)
    if not isinstance(value, list):
        return True
    if nesting == MOST_NESTING:
        return False
    if isinstance(value, Members):
        return all(is_plain(name) and is_plain(member, nesting + 1) for name, member in value)
    return all(is_plain(element, nesting + 1) for element in value)


def read_json(content):
    try:
        value = json.loads(
            content.decode("utf-8"),
            object_pairs_hook=Members,
            parse_int=number,
            parse_float=number,
            parse_constant=no_constant,
        )
    except (ValueError, RecursionError):
        raise Fault("not-json") from None
    if not is_plain(value):
        raise Fault("not-json")
    return value


def read_manifest(content):
    """The name and the version that a manifest says."""
    value = read_json(content)
    if not isinstance(value, Members):
        raise Fault("not-json")
    members = dict(value)
    if "name" not in members:
        raise Fault("no-name")
    name = members["name"]
    if not isinstance(name, str) or not is_name(name):
        raise Fault("bad-name")
    if "version" not in members:
        raise Fault("no-version")
    return name, read_version(members["version"])


def read_version(value):
    digits = value.text if isinstance(value, Number) else ""
    if re.fullmatch("[0-9]{1,19}", digits) is None or not 1 <= int(digits) <= MOST_VERSION:
        raise Fault("bad-version")
    return int(digits)


def manifest_of(files):
    if MANIFEST not in files:
        raise Fault("no-manifest")
    return read_manifest(files[MANIFEST])


# Listings


def digest(content):
    return hashlib.sha256(content).hexdigest()


def listing_of(files):
    """The listing of the files other than the listing itself."""
    lines = [f"{digest(files[path])} {path}\n" for path in sorted(files) if path != LISTING]
    return "".join(lines).encode("ascii")


def read_listing(content):
    """The digests of a listing by their paths, in its order."""
    listed = {}
    last_path = ""
    lines = content.split(b"\n")
    unended = lines.pop()
    for place, line in enumerate(lines, start=1):
        parts = LISTING_LINE.fullmatch(line)
        path = parts[2].decode("latin-1") if parts else ""
        if not is_path(path) or path <= last_path or path == LISTING:
            raise Fault(f"bad-listing {place}")
        listed[path] = parts[1].decode("ascii")
        last_path = path
    if unended:
        raise Fault(f"bad-listing {len(lines) + 1}")
    return listed


def check_listing(files):
    """Raises the first fault of the listing, if it has one."""
    if LISTING not in files:
        raise Fault("no-listing")
    listed = read_listing(files[LISTING])
    for path in sorted(files):
        if path != LISTING and path not in listed:
            raise Fault(f"unlisted {path}")
    for path in listed:
        if path not in files:
            raise Fault(f"absent {path}")
    for path, wanted in listed.items():
        found = digest(files[path])
        if found != wanted:
            raise Fault(f"differs {path} {wanted} {found}")


# Whole modules


class Module:
    """A module as it stands; its files never change.

    `name` and `version` are None where the manifest doesn't read. `fault` is the first fault in words, and None where
    the module is sound.
    """

    def __init__(self, files):
        self.files = files
        self.name = self.version = self.fault = None
        try:
            self.name, self.version = manifest_of(files)
            check_listing(files)
        except Fault as fault:
            self.fault = str(fault)

    @property
    def key(self):
        """The bytes of the key, or None where there is none."""
        return self.files.get(KEY)

    @property
    def weight(self):
        return sum(len(content) + FILE_WEIGHT for content in self.files.values())


def sealed(files):
    """The files with their right listing."""
    return {**files, LISTING: listing_of(files)}


@lru_cache
def short_form(name, version):
    """The module that `NAME@VERSION` stands for."""
    manifest = f'{{"name":"{name}","version":{version}}}'
    return Module(sealed({MANIFEST: manifest.encode("ascii")}))
