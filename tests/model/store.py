"""A data store, as small as it can be: what it holds, and the answer to each command in the words of a script.

Python's `re` reads the patterns, so a pattern of a test must mean the same there.
"""
import re

from . import lines

MOST_KEYS = 4096
MOST_FLOORS = 64
MOST_SUBSCRIPTIONS = 128
MOST_CHECKED = 256  # items of one check
MOST_PATTERN = 128  # bytes
LAST_PLACE = 2**62  # of positions and stamps
RS = (0, 2)  # the endpoint of RS
LABEL = 0  # the place of the kind `label`


class Refused(Exception):
    """A refusal; its text is the word of a script."""


class Query:
    """A pattern that was read, and a mask of kinds."""

    def __init__(self, pattern, kinds):
        if len(pattern) > MOST_PATTERN:
            raise Refused("toolong")
        try:
            if re.search(rb"[^ -~]", pattern):
                raise re.error("a byte that isn't printable")
            if re.search(rb"\{(?!\d+(,\d*)?\})", pattern):
                raise re.error("a brace that doesn't begin a repetition, which Python takes for itself")
            re.compile(pattern)
            self.whole = re.compile(rb"(?:" + pattern + rb")\Z")
        except re.error:
            raise Refused("badpattern") from None
        self.kinds = kinds

    def admits(self, key):
        """Returns whether the key is under the query."""
        name, kind = key
        return self.kinds >> kind & 1 == 1 and self.whole.match(name) is not None


class Subscription:
    """A query, the stamp of the last subscribe or check, and the line of every item that was shown."""

    def __init__(self, query, stamp, shown):
        self.query = query
        self.stamp = stamp
        self.shown = shown


class Store:
    """A store: `held` is a dictionary from keys to (owner, version, value), where the value of a tombstone is None.

    `floors` is a dictionary from owners to generations, `subscriptions` one from numbers. `accepted` has every item that took effect, with
    its key, None for a floor, and its line, at the positions from `first` on. A cursor reaches the last `ring` of them.
    """

    def __init__(self, ring=256, incarnation=1, first=0, subs=MOST_SUBSCRIPTIONS, keys=MOST_KEYS):
        self.ring, self.incarnation, self.first, self.subs, self.keys = ring, incarnation, first, subs, keys
        self.accepted = []
        self.held = {}
        self.floors = {}
        self.stamp = first
        self.subscriptions = {}

    def position(self):
        """Returns the position of the next item."""
        return self.first + len(self.accepted)

    def accept(self, key, line):
        """Adds an item that takes effect, if a position is left for it."""
        if self.position() >= LAST_PLACE:
            raise Refused("worn")
        self.accepted.append((key, line))

    def next_stamp(self):
        """Returns the next stamp, if one is left."""
        if self.stamp >= LAST_PLACE:
            raise Refused("worn")
        self.stamp += 1
        return self.stamp

    def mask(self, numbers):
        """Returns the line of a mask with these bits, or no line if there are none."""
        return self.mask_line(sum(1 << number for number in numbers))

    def mask_line(self, bits):
        """Returns the line of a mask, a byte for eight subscriptions, or no line if it is 0."""
        return [b"owed %0*x" % (self.subs // 4, bits)] if bits else []

    def answer(self, command, taken):
        """Answers a command by the lines that a script prints."""
        return answered(self, command, taken)

    # ---- items that others made ----

    def offer(self, item):
        """Merges one item."""
        try:
            return self.take_floor(*item) if isinstance(item, lines.Floor) else self.take(*item)
        except Stale:
            return [b"stale"]

    def merge(self, items, is_under=lambda key: True):
        """Merges items in order, up to the first that is stopped; those that aren't under a query are passed over."""
        done = taken = stale = owed = 0
        for item in items:
            if isinstance(item, lines.Floor) or is_under(item.key):
                try:
                    answer, *masks = self.offer(item)
                except Refused as fault:
                    return [b"stopped %d %s" % (done, str(fault).encode())] + self.mask_line(owed)
                taken += answer == b"taken"
                stale += answer == b"stale"
                for mask in masks:
                    owed |= int(mask.split()[1], 16)
            done += 1
        return [b"merged %d %d %d" % (done, taken, stale)] + self.mask_line(owed)

    def take(self, key, owner, version, value, overwrite=True, is_deletion=False):
        """Accepts a change, or refuses it."""
        has = self.held.get(key)
        if has and owner != has[0]:
            raise Refused("notowner")
        if self.is_void(key, owner, version) or has and version < has[1]:
            raise Stale("stale")
        if has and version == has[1]:
            if value == has[2]:
                return [b"known"]
            raise Refused("clash %d.%d" % version)
        is_live = has is not None and has[2] is not None
        if is_live and not overwrite:
            raise Refused("exists")
        if is_deletion and not is_live:
            raise Refused("notfound")
        if not has and len(self.held) == self.keys:
            raise Refused("full")
        self.accept(key, line_of(key, owner, version, value))
        self.held[key] = (owner, version, value)
        return [b"taken"] + self.owed(key)

    def take_floor(self, owner, generation):
        """Accepts a floor, or refuses it."""
        held = self.floors.get(owner, -1)
        if generation < held:
            raise Stale("stale")
        if generation == held:
            return [b"known"]
        self.raise_floor(owner, generation)
        return [b"taken"] + self.mask(self.subscriptions)

    # ---- floors ----

    def is_void(self, key, owner, version):
        """Returns whether a floor of the owner ended the generation of such a change. No label is ever void."""
        return key[1] != LABEL and version[0] <= self.floors.get(owner, -1)

    def raise_floor(self, owner, generation):
        """Raises the floor of an owner, and returns how many puts it dropped. It drops tombstones, too."""
        if owner not in self.floors and len(self.floors) == MOST_FLOORS:
            raise Refused("full")
        self.accept(None, b"! %s %d" % (owner, generation))
        self.floors[owner] = generation
        dropped = [key for key, (of, version, _) in self.held.items() if self.is_void(key, of, version)]
        return sum(self.held.pop(key)[2] is not None for key in dropped)

    # ---- changes by a caller ----

    def publish(self, caller, key, version, value, overwrite):
        """Puts a value in the caller's name."""
        return self.take(key, self.owner(caller, key, version, value), version, value, overwrite)

    def delete(self, caller, key, version):
        """Leaves a tombstone in the caller's name."""
        return self.take(key, self.owner(caller, key, version, None), version, None, is_deletion=True)

    def owner(self, caller, key, version, value):
        """Returns the owner of a caller's change: the caller's name."""
        epoch, seq = version
        if key[1] == LABEL:
            is_good = seq == 1 if value is None else seq == 0 and lines.numbers_of(value)[0] == epoch
            if key[0] == b"rs" or epoch == 0 or not is_good:
                raise Refused("badlabel")
        elif epoch != caller[0] or seq == lines.MOST_NUMBER:
            raise Refused("badversion")
        named = self.name_of(caller)
        if named is None:
            raise Refused("nocaller")
        if key[1] == LABEL and caller != RS:
            raise Refused("notallowed")
        return named

    def name_of(self, endpoint):
        """Returns the least name whose live label holds the endpoint, or None."""
        if endpoint == RS:
            return b"rs"
        spelled = b"%d/%d" % endpoint
        return min((name for (name, kind), (_, _, value) in self.held.items() if kind == LABEL and value == spelled), default=None)

    def sweep(self, caller, owner, generation):
        """Raises the floor of a dead owner, unless it is already as high."""
        if caller != RS:
            raise Refused("notallowed")
        if generation <= self.floors.get(owner, -1):
            return [b"swept 0"]
        return [b"swept %d" % self.raise_floor(owner, generation)] + self.mask(self.subscriptions)

    # ---- subscriptions ----

    def owed(self, key):
        """Returns the line of the subscriptions that have the key under their query, if there are any."""
        return self.mask(number for number, it in self.subscriptions.items() if it.query.admits(key))

    def under(self, query):
        """Returns the lines of the floors, which are under every query, and then of the changes under this one, each in order."""
        return self.floor_lines() + [line_of(key, *self.held[key]) for key in sorted(self.held) if query.admits(key)]

    def subscribe(self, sub, query, initial, overwrite):
        """Begins to follow a query, from what is held or from now on."""
        if sub >= self.subs:
            raise Refused("badsub")
        asked = Query(*query)
        if sub in self.subscriptions and not overwrite:
            raise Refused("exists")
        stamp = self.next_stamp()
        there = self.under(asked)
        self.subscriptions[sub] = Subscription(asked, stamp, set() if initial else set(there))
        return [b"subscribed %d" % self.stamp] + self.mask([sub] if initial and there else [])

    def check(self, sub, most):
        """Shows the first items that weren't shown."""
        if sub >= self.subs:
            raise Refused("badsub")
        if not 1 <= most <= MOST_CHECKED:
            raise Refused("toomany")
        if sub not in self.subscriptions:
            raise Refused("notfound")
        subscription = self.subscriptions[sub]
        unseen = [line for line in self.under(subscription.query) if line not in subscription.shown]
        shown, before = unseen[:most], subscription.stamp
        if shown:
            subscription.stamp = self.next_stamp()
            subscription.shown.update(shown)
        return shown + [b"checked %d %d %d" % (len(shown), before, subscription.stamp)]

    # ---- readers, whose scope is None for all keys, or a pattern and kinds ----

    def since(self, incarnation, position, most, scope):
        """Returns the items that took effect under the scope from a cursor on, and the next cursor."""
        is_under = asked_under(scope, most)
        end = self.position()
        if incarnation != self.incarnation:
            raise Refused("oldcursor")
        if position > end:
            raise Refused("ahead")
        if position + min(self.ring, len(self.accepted)) < end:
            raise Refused("behind")
        given = []
        for key, line in self.accepted[position - self.first:]:
            if len(given) == most:
                break
            position += 1
            given += [line] if is_under(key) else []
        return given + [b"since %d %d %d" % (len(given), self.incarnation, position)]

    def snapshot(self, scope):
        """Returns all that is held under the scope."""
        is_under = asked_under(scope)
        given = self.floor_lines() + [line_of(key, *self.held[key]) for key in sorted(self.held) if is_under(key)]
        return given + [b"snapshot %d %d %d" % (len(given), self.incarnation, self.position())]

    def page(self, most, after, scope):
        """Returns the first changes that are held under the scope after a key; if that is None, all floors, too."""
        is_under = asked_under(scope, most)
        left = [key for key in sorted(self.held) if is_under(key) and (after is None or key > after)]
        given = (self.floor_lines() if after is None else []) + [line_of(key, *self.held[key]) for key in left[:most]]
        mark = b"more" if len(left) > most else b"last"
        return given + [b"page %d %s %d %d" % (len(given), mark, self.incarnation, self.position())]

    def restart(self, incarnation):
        """Begins again with nothing, as another incarnation."""
        self.__init__(self.ring, incarnation, self.first, self.subs, self.keys)
        return [b"restarted"]

    # ---- questions ----

    def retrieve(self, key):
        """Returns the value of a live entry."""
        _, _, value = self.held.get(key, (None, None, None))
        if value is None:
            raise Refused("notfound")
        return [b"found " + value]

    def nameof(self, endpoint):
        """Returns the name of an endpoint."""
        named = self.name_of(endpoint)
        if named is None:
            raise Refused("notfound")
        return [b"named " + named]

    def show(self):
        """Returns the puts that are held."""
        return counted(self.changes(lambda value: value is not None))

    def all(self):
        """Returns all that is held."""
        return counted(self.floor_lines() + self.changes(lambda value: True))

    def changes(self, is_shown):
        """Returns the lines of the changes that are held, in order of the names' bytes and then the kinds."""
        return [line_of(key, *self.held[key]) for key in sorted(self.held) if is_shown(self.held[key][2])]

    def floor_lines(self):
        """Returns the lines of the floors that are held, in order of the owners' names."""
        return [b"! %s %d" % it for it in sorted(self.floors.items())]


class Stale(Refused):
    """An item that is older than what is held: an offer of it isn't refused."""


def line_of(key, owner, version, value):
    """Returns the line of a change."""
    body = b"-" if value is None else b"= " + value
    return b"%s %s %s %d.%d %s" % (key[0], lines.KINDS[key[1]], owner, *version, body)


def asked_under(scope, most=1):
    """Returns a test of whether a key is under a scope, for a call of at most `most` items. None is a floor's key, which is under every scope."""
    if not 1 <= most <= MOST_CHECKED:
        raise Refused("toomany")
    query = scope and Query(*scope)
    return lambda key: key is None or query is None or query.admits(key)


def counted(shown):
    """Returns the lines, and then their number."""
    return shown + [b"shown %d" % len(shown)]


def answered(asked, command, taken):
    """Returns the answer of `asked` to a command, also a refusal, by the lines that a script prints."""
    try:
        return getattr(asked, command.decode())(*taken)
    except Refused as refused:
        return [b"refused " + str(refused).encode()]
