"""The world: sessions, data and watches, and what boots and calls do with them (docs/boot.md, docs/calls.md).

Everything is looked up by going over all sessions, as the pages say it, without tables beside them.
"""

from copy import deepcopy
from dataclasses import dataclass

FIRST_ROLLBACK_ID = 1073741824
MOST_PARTS = 16
ENTRY_WEIGHT = 128
ROLLBACK_LIFE = 1209600000
BOOT_LOOP_SPAN = 600000
FAILURE_SPAN = 60000
TOO_OFTEN = 5
WATCH_TIME = 172800000

UNFINISHED = ("VERIFIED", "STAGED", "ACTIVATED", "REVERT_IN_PROGRESS")
STANDING = ("ACTIVATED", "SUCCESS", "REVERT_IN_PROGRESS")
UNDOABLE = ("ACTIVATED", "REVERT_IN_PROGRESS")
LEVELS = ("none", "low", "medium", "high")


class Refused(Exception):
    """Why a call is refused, in the words of the text."""


@dataclass(frozen=True)
class Part:
    """One name of a session. The target is a session and a part from 0, or None for the preinstalled module."""

    name: str
    target: tuple | None


@dataclass
class Session:
    id: int
    children: tuple
    parts: tuple
    fingerprint: str
    state: str
    takes_back: int | None = None
    cause: str = ""
    activation: int = 0
    rollback: str | None = None
    moment: int = 0

    def names(self):
        return [part.name for part in self.parts]

    def has_name(self, name):
        return name in self.names()

    def shares_name(self, other):
        return any(other.has_name(name) for name in self.names())

    def units(self):
        if self.takes_back is not None:
            return 0
        return 1 if self.rollback is None else 2

    def end(self, state, cause=""):
        """Moves to a state that is no success; a rollback that is ENABLING goes with it."""
        self.state = state
        self.cause = cause
        if self.rollback == "ENABLING":
            self.rollback = "DELETED"


@dataclass
class BootReply:
    number: int
    changed: list
    active: dict
    loop: tuple | None


class World:
    """A device of a scale, before its first boot."""

    def __init__(self, scale):
        self.scale = scale
        self.sessions = {}
        self.submitted = {}
        self.data = {}
        self.eras = []
        self.boot_moments = []
        self.watches = {}
        # What the last boot left:
        self.fingerprint = None
        self.image = {}
        self.observers = []
        self.active = {}
        self.clock = 0
        self.failures = {}

    # Looking back over all sessions

    def in_order(self, *states):
        """The sessions in one of these states, or all where none is given, ascending by id."""
        sessions = [self.sessions[id] for id in sorted(self.sessions)]
        return [session for session in sessions if not states or session.state in states]

    def held(self, name):
        """The target that a name holds."""
        return latest_target(self.in_order(*STANDING), name)

    def before(self, session, name):
        """The target that a name held before a session."""
        earlier = [other for other in self.in_order("SUCCESS") if other.activation < session.activation]
        return latest_target(earlier, name)

    def kept(self):
        """The targets on data whose modules are kept."""
        targets = set()
        for session in self.in_order():
            for part in session.parts:
                if session.state in UNFINISHED:
                    targets.add(part.target)
                if session.state in STANDING:
                    targets.add(self.held(part.name))
                if session.state in UNDOABLE or session.rollback == "AVAILABLE":
                    targets.add(self.before(session, part.name))
        return targets - {None}

    def kept_weight(self):
        return sum(self.submitted[target].weight for target in self.kept())

    # A boot

    def boot(self, order):
        states = {id: session.state for id, session in self.sessions.items()}
        self.eras.append(deepcopy(self.data))
        for session in self.in_order():
            self.boot_session(session, order)
        self.settle_data(order, states)
        self.settle_rollbacks(order)
        self.settle_watches(order)
        self.active = {name: self.chosen(name, order) for name in sorted(order.image)}
        self.fingerprint = order.fingerprint
        self.image = order.image
        self.observers = order.observers
        self.clock = order.moment
        self.failures = {}
        loop = self.boot_loop()
        changed = [self.sessions[id] for id in sorted(states) if self.sessions[id].state != states[id]]
        return BootReply(len(self.eras), changed, self.active, loop)

    def boot_session(self, session, order):
        """What a boot makes of one session, and of its rollback where the build is another or a name is gone."""
        other_build = session.fingerprint != order.fingerprint
        if session.state == "REVERT_IN_PROGRESS":
            session.state, session.cause = "REVERTED", "reverted"
        elif session.state == "ACTIVATED" and other_build:
            session.state, session.cause = "REVERTED", "other-build"
        if session.rollback in ("ENABLING", "AVAILABLE"):
            if other_build or not all(name in order.image for name in session.names()):
                session.rollback = "DELETED"
        if session.state == "STAGED":
            cause = "other-build" if other_build else self.why_not(session, order)
            session.state, session.cause = ("ACTIVATION_FAILED", cause) if cause else ("ACTIVATED", "")
            if not cause:
                session.activation = len(self.eras)
        elif session.state == "ACTIVATED":
            cause = self.why_not(session, order)
            if cause:
                session.state, session.cause = "REVERTED", cause

    def why_not(self, session, order):
        """The cause of the first part that doesn't work; no text where all do."""
        for part in session.parts:
            case = self.case_of(part.name, part.target, order)
            if case:
                return f"part {part.name} {case}"
        return ""

    def case_of(self, name, target, order):
        """Why a target doesn't work for a name; no text where it does."""
        if name not in order.image:
            return "not-in-image"
        preinstalled = order.image[name]
        if target is None:
            return usable(preinstalled, "pre", order)
        module = self.submitted[target]
        if module.version < preinstalled.version:
            return "below-preinstalled"
        if module.key != preinstalled.key:
            return "key-differs"
        return usable(module, "data", order)

    def chosen(self, name, order):
        """The version and place that are chosen for a name of the image, or None."""
        target = self.held(name)
        if target is not None and not self.case_of(name, target, order):
            return self.submitted[target].version, "data"
        if not usable(order.image[name], "pre", order):
            return order.image[name].version, "pre"
        return None

    def settle_data(self, order, states):
        """Brings back the data of rollbacks, and removes that of names which are gone. `states` are those before."""
        data = dict(self.data)
        for session in self.in_order():
            if session.takes_back is None:
                continue
            for name in session.names():
                if session.state == "ACTIVATED" and session.activation == len(self.eras):
                    data[name] = self.data_before(self.sessions[session.takes_back].activation, name)
                if session.state == "REVERTED" and states[session.id] != "REVERTED":
                    data[name] = self.data_before(session.activation, name)
        self.data = {name: entries for name, entries in data.items() if name in order.image}

    def data_before(self, boot, name):
        """The data of a name just before a boot."""
        return dict(self.eras[boot - 1].get(name, {}))

    def settle_rollbacks(self, order):
        for session in self.in_order():
            ended = session.rollback == "ENABLING" and session.state in ("ACTIVATION_FAILED", "REVERTED")
            expired = session.rollback == "AVAILABLE" and order.moment >= session.moment + ROLLBACK_LIFE
            if ended or expired:
                session.rollback = "DELETED"

    def settle_watches(self, order):
        registered = [observer.name for observer in order.observers]
        for observer, name in list(self.watches):
            over = order.moment >= self.watches[observer, name]
            if over or observer not in registered or name not in order.image:
                del self.watches[observer, name]

    def boot_loop(self):
        """Who acts at a boot loop and the sessions that it makes, or None where there is no boot loop."""
        self.boot_moments.append(self.clock)
        last = self.boot_moments[-TOO_OFTEN:]
        if len(last) < TOO_OFTEN or not all(self.clock - BOOT_LOOP_SPAN <= moment <= self.clock for moment in last):
            return None
        self.boot_moments = []
        return self.act(self.observers, self.eligible())

    # Calls

    def call(self, call):
        """Makes a call and gives the words of its answer."""
        try:
            return getattr(self, call.word)(*call.arguments)
        except Refused as refusal:
            return f"refused {refusal}"

    def submit(self, id, children, kind, modules):
        self.check_ids((id, *children))
        self.check_parts(children, modules)
        self.check_names(modules)
        names = [module.name for module in modules]
        parts = tuple(Part(name, (id, place)) for place, name in enumerate(names))
        session = Session(id, children, parts, self.fingerprint, "VERIFIED")
        session.rollback = "ENABLING" if kind == "rollback" else None
        self.add_within_limits(session, modules)
        return "ok"

    group = submit

    def check_ids(self, ids):
        for id in ids:
            if not 1 <= id < FIRST_ROLLBACK_ID:
                raise Refused(f"id-range {id}")
        taken = {id for session in self.in_order() for id in (session.id, *session.children)}
        for id in ids:
            if id in taken:
                raise Refused(f"id-taken {id}")
            taken.add(id)

    def check_parts(self, children, modules):
        wanted = len(children) if children else 1
        if len(modules) != wanted or not 1 <= len(modules) <= MOST_PARTS:
            raise Refused(f"parts {len(modules)}")
        for place, module in enumerate(modules, start=1):
            if module.fault is not None:
                raise Refused(f"part {place} {module.fault}")

    def check_names(self, modules):
        names = [module.name for module in modules]
        for place, name in enumerate(names):
            if name in names[:place]:
                raise Refused(f"twice-named {name}")
        for name in names:
            if name not in self.image:
                raise Refused(f"not-preinstalled {name}")
        for module in modules:
            if module.key != self.image[module.name].key:
                raise Refused(f"key-differs {module.name}")
        for name in names:
            self.refuse_overlap(name, UNFINISHED)
        for module in modules:
            active = self.active_version(module.name)
            if module.version < active:
                raise Refused(f"downgrade {module.name} {active} {module.version}")

    def refuse_overlap(self, name, states):
        for session in self.in_order(*states):
            if session.has_name(name):
                raise Refused(f"overlap {name} {session.id}")

    def active_version(self, name):
        """The version that is active; the preinstalled one where the name is missing."""
        chosen = self.active[name]
        return self.image[name].version if chosen is None else chosen[0]

    def add_within_limits(self, session, modules):
        """Adds a session with its modules, or takes it out again where a limit is exceeded."""
        self.sessions[session.id] = session
        for place, module in enumerate(modules):
            self.submitted[session.id, place] = module
        units = sum(session.units() for session in self.in_order())
        weight = self.kept_weight()
        if units > self.scale.units or weight > self.scale.kept_weight:
            del self.sessions[session.id]
        if units > self.scale.units:
            raise Refused(f"sessions-full {units}")
        if weight > self.scale.kept_weight:
            raise Refused(f"store-full {weight}")

    def session_in(self, id, *states):
        """The session of an id, which has to be in one of these states."""
        if id not in self.sessions:
            raise Refused(f"no-session {id}")
        session = self.sessions[id]
        if session.state not in states:
            raise Refused(f"bad-state {session.state}")
        return session

    def ready(self, id):
        self.session_in(id, "VERIFIED", "STAGED").state = "STAGED"
        return "ok"

    def abort(self, id):
        self.session_in(id, "VERIFIED", "STAGED").end("ABORTED")
        return "ok"

    def success(self, moment, id):
        session = self.session_in(id, "ACTIVATED", "SUCCESS")
        self.clock = max(self.clock, moment)
        if session.state == "ACTIVATED":
            session.state = "SUCCESS"
            for other in self.in_order():
                if other is not session and other.rollback == "AVAILABLE" and other.shares_name(session):
                    other.rollback = "DELETED"
            if session.rollback == "ENABLING":
                session.rollback, session.moment = "AVAILABLE", self.clock
        return "ok"

    def revert(self):
        activated = self.in_order("ACTIVATED")
        if not activated:
            raise Refused("nothing-to-revert")
        for session in activated:
            session.state = "REVERT_IN_PROGRESS"
        return "ok"

    def state(self, id):
        for session in self.in_order():
            if id == session.id or id in session.children:
                rollback = "" if session.rollback is None else f" rollback {session.rollback}"
                return f"state {session.state}{rollback}"
        raise Refused(f"no-session {id}")

    # Rollbacks

    def commit(self, id):
        session = self.sessions.get(id)
        if session is None or session.rollback is None:
            raise Refused(f"no-rollback {id}")
        if session.rollback != "AVAILABLE":
            raise Refused(f"rollback-state {session.rollback}")
        for name in session.names():
            self.refuse_overlap(name, UNDOABLE)
        return f"committed {self.take_back(session)}"

    def take_back(self, session):
        """Makes the session that takes one back, and gives its id."""
        id = FIRST_ROLLBACK_ID + session.id
        for other in self.in_order("VERIFIED", "STAGED"):
            if other.shares_name(session):
                other.end("ACTIVATION_FAILED", f"superseded {id}")
        children = tuple(FIRST_ROLLBACK_ID + child for child in session.children)
        parts = tuple(Part(name, self.before(session, name)) for name in session.names())
        self.sessions[id] = Session(id, children, parts, self.fingerprint, "STAGED", takes_back=session.id)
        session.rollback = "COMMITTED"
        return id

    def eligible(self):
        """The sessions whose rollbacks can be committed by themselves."""
        available = [session for session in self.in_order() if session.rollback == "AVAILABLE"]
        in_the_way = self.in_order(*UNDOABLE)
        return [session for session in available if not any(map(session.shares_name, in_the_way))]

    def act(self, observers, rollbacks):
        """Has the right one of the observers act. Gives its name and the ids of the sessions that it makes."""
        levels = []
        for observer in observers:
            level = observer.level
            if level == "rollback":
                level = "medium" if rollbacks else "none"
            levels.append(LEVELS.index(level))
        least = min((level for level in levels if level > 0), default=None)
        if least is None:
            return "-", []
        acting = observers[levels.index(least)]
        if acting.level != "rollback":
            return acting.name, []
        return acting.name, [self.take_back(session) for session in rollbacks]

    # Data

    def put(self, name, key, value):
        self.check_known(name)
        entries = {**self.data.get(name, {}), key: value}
        weight = sum(len(key) + len(value) + ENTRY_WEIGHT for key, value in entries.items())
        if weight > self.scale.data_weight:
            raise Refused(f"data-full {weight}")
        self.data[name] = entries
        return "ok"

    def drop(self, name, key):
        self.value_of(name, key)
        del self.data[name][key]
        return "ok"

    def get(self, name, key):
        return f"value {self.value_of(name, key).hex() or '-'}"

    def value_of(self, name, key):
        self.check_known(name)
        if key not in self.data.get(name, {}):
            raise Refused(f"no-key {key}")
        return self.data[name][key]

    def check_known(self, name):
        if name not in self.image:
            raise Refused(f"unknown-module {name}")

    # The watchdog

    def watch(self, moment, observer, duration, names):
        if observer not in [registered.name for registered in self.observers]:
            raise Refused(f"no-observer {observer}")
        for name in names:
            self.check_known(name)
        self.clock = max(self.clock, moment)
        for name in names:
            self.watches[observer, name] = self.clock + (duration or WATCH_TIME)
        return "ok"

    def report(self, moment, name, reason):
        self.check_known(name)
        self.clock = max(self.clock, moment)
        if reason not in ("native_crash", "health_check"):
            failures = self.failures.setdefault(name, [])
            failures.append(self.clock)
            if sum(failure >= self.clock - FAILURE_SPAN for failure in failures) < TOO_OFTEN:
                return "noted"
        self.failures.pop(name, None)
        watching = [observer for observer in self.observers if self.watches.get((observer.name, name), 0) > self.clock]
        rollbacks = self.eligible()
        if reason != "native_crash":
            rollbacks = [session for session in rollbacks if session.has_name(name)]
        return " ".join(["triggered", *acted_words(self.act(watching, rollbacks))])


def latest_target(sessions, name):
    """The target of a name in the session that was activated last, or None for the preinstalled module."""
    naming = [session for session in sessions if session.has_name(name)]
    if not naming:
        return None
    last = max(naming, key=lambda session: session.activation)
    return next(part.target for part in last.parts if part.name == name)


def usable(module, place, order):
    """Why a module can't be used from its place; no text where it can."""
    if module.fault is not None:
        return "unsound"
    if (place, module.name, module.version) in order.unmounted:
        return "no-mount"
    return ""


def acted_words(acted):
    observer, ids = acted
    return [observer, *map(str, ids)]
