"""The data model: worlds, and what each operation replies and does.

Written from docs/DATA_MODEL.md and docs/DECISIONS.md alone, and in the plainest way: an operation looks everything up
anew.
"""

from typing import NamedTuple

OBJECT = 0
MOST_OBJECTS = 4096


class Value(NamedTuple):
    """A value. `what` is a number for `int`, `class` and `obj`, a text for `text`, `func`, `static` and `classm`, and
    for `prop` the getter, setter and deleter, each the name of a function or None."""

    kind: str
    what: object = None


NONE = Value("none")


class Reply(NamedTuple):
    """A reply: its word, and what it carries."""

    word: str
    carries: tuple = ()


DONE = Reply("done")


def value_reply(value):
    return Reply("value", (value,))


def method(function, receiver):
    return Reply("method", (function, receiver))


def hook(kind, callee, receiver, other=NONE, value=NONE):
    return Reply("hook", (kind, callee, receiver, other, value))


def merge(lists):
    """The C3 merge, or None where it finds no head."""
    lists = [items for items in lists if items]
    merged = []
    while lists:
        head = next((items[0] for items in lists if not any(items[0] in other[1:] for other in lists)), None)
        if head is None:
            return None
        merged.append(head)
        lists = [items[1:] if items[0] == head else items for items in lists]
        lists = [items for items in lists if items]
    return merged


def order_of(bases, c):
    """The linearization of class c among classes with these bases, or None."""
    orders = [order_of(bases, base) for base in bases[c]]
    if None in orders:
        return None
    rest = merge(orders + [bases[c]])
    return None if rest is None else [c] + rest


class World:
    def __init__(self):
        self.bases = {OBJECT: []}
        self.own = {OBJECT: {}}
        self.classes = []  # the class of each object
        self.dictionaries = []  # which dictionary each object names
        self.values = []  # the values in each dictionary
        self.places = 0

    def order(self, c):
        return order_of(self.bases, c)

    def found(self, classes, name):
        return next((self.own[c][name] for c in classes if name in self.own[c]), None)

    def find(self, c, name):
        return self.found(self.order(c), name)

    def dictionary(self, o):
        return self.values[self.dictionaries[o]]

    def special_names(self, value):
        """What the class of a descriptor has: `__get__`, `__set__` and `__delete__`."""
        if value is None or value.kind != "obj":
            return None, None, None
        c = self.classes[value.what]
        return tuple(self.find(c, name) for name in ("__get__", "__set__", "__delete__"))

    # Reading

    def bound(self, found, o):
        """What was found on the class of object o, as the object sees it, whatever its dictionary has."""
        c = self.classes[o]
        getter = self.special_names(found)[0]
        if found is None:
            return Reply("noattr")
        if found.kind == "prop":
            function = found.what[0]
            if function is None:
                return Reply("nogetter")
            return hook("getter", Value("func", function), Value("obj", o))
        if found.kind == "func":
            return method(found.what, Value("obj", o))
        if found.kind == "static":
            return value_reply(Value("func", found.what))
        if found.kind == "classm":
            return method(found.what, Value("class", c))
        if getter is not None:
            return hook("dget", getter, found, Value("obj", o), Value("class", c))
        return value_reply(found)

    def get(self, o, name):
        found = self.find(self.classes[o], name)
        getter, setter, deleter = self.special_names(found)
        is_property = found is not None and found.kind == "prop"
        is_data_descriptor = getter is not None and (setter is not None or deleter is not None)
        if not is_property and not is_data_descriptor and name in self.dictionary(o):
            return value_reply(self.dictionary(o)[name])
        reply = self.bound(found, o)
        instead = self.find(self.classes[o], "__getattr__")
        if reply.word in ("noattr", "nogetter") and instead is not None:
            return hook("getattr", instead, Value("obj", o), Value("text", name))
        return reply

    def special(self, o, name):
        return self.bound(self.find(self.classes[o], name), o)

    def super(self, after, o, name):
        order = self.order(self.classes[o])
        if after not in order:
            return Reply("notsubclass")
        return self.bound(self.found(order[order.index(after) + 1 :], name), o)

    def cget(self, c, name):
        found = self.find(c, name)
        getter = self.special_names(found)[0]
        if found is None:
            return Reply("noattr")
        if found.kind in ("func", "static"):
            return value_reply(Value("func", found.what))
        if found.kind == "classm":
            return method(found.what, Value("class", c))
        if getter is not None:
            return hook("dget", getter, found, NONE, Value("class", c))
        return value_reply(found)

    def classof(self, o):
        return value_reply(Value("class", self.classes[o]))

    def mro(self, c):
        return Reply("order", tuple(self.order(c)))

    # Writing

    def set(self, o, name, value):
        found = self.find(self.classes[o], name)
        _, setter, deleter = self.special_names(found)
        if found is not None and found.kind == "prop":
            function = found.what[1]
            if function is None:
                return Reply("nosetter")
            return hook("setter", Value("func", function), Value("obj", o), NONE, value)
        if setter is not None:
            return hook("dset", setter, found, Value("obj", o), value)
        if deleter is not None:
            return Reply("nosetter")
        self.dictionary(o)[name] = value
        return DONE

    def delete(self, o, name):
        found = self.find(self.classes[o], name)
        _, setter, deleter = self.special_names(found)
        if found is not None and found.kind == "prop":
            function = found.what[2]
            if function is None:
                return Reply("nodeleter")
            return hook("deleter", Value("func", function), Value("obj", o))
        if deleter is not None:
            return hook("ddel", deleter, found, Value("obj", o))
        if setter is not None:
            return Reply("nodeleter")
        if name not in self.dictionary(o):
            return Reply("noattr")
        del self.dictionary(o)[name]
        return DONE

    # Classes and objects

    def without_order(self, bases):
        """The refusal of these bases: the least class that would have no order."""
        lacking = [c for c in sorted(bases) if order_of(bases, c) is None]
        return Reply("noorder", (lacking[0],)) if lacking else None

    def refused_bases(self, bases):
        if not bases:
            return Reply("emptybases")
        return Reply("duplicate") if len(set(bases)) < len(bases) else None

    def new_class(self, c, bases):
        if c in self.bases:
            return Reply("nametaken")
        with_it = {**self.bases, c: bases}
        refusal = self.refused_bases(bases) or self.without_order(with_it)
        if refusal:
            return refusal
        self.bases = with_it
        self.own[c] = {}
        return DONE

    def set_bases(self, c, bases):
        if c == OBJECT:
            return Reply("immutable")
        refusal = self.refused_bases(bases)
        if refusal:
            return refusal
        if any(c in self.order(base) for base in bases):
            return Reply("cycle")
        with_them = {**self.bases, c: bases}
        refusal = self.without_order(with_them)
        if refusal:
            return refusal
        self.bases = with_them
        return DONE

    def put(self, c, name, value):
        if c == OBJECT:
            return Reply("immutable")
        self.own[c][name] = value
        return DONE

    def cut(self, c, name):
        if c == OBJECT:
            return Reply("immutable")
        if name not in self.own[c]:
            return Reply("noattr")
        del self.own[c][name]
        return DONE

    def new(self, c):
        if c == OBJECT:
            return Reply("immutable")
        if len(self.classes) == MOST_OBJECTS:
            return Reply("full")
        o = len(self.classes)
        self.classes.append(c)
        self.dictionaries.append(o)
        self.values.append({})
        return Reply("made", (o, self.find(c, "__init__")))

    def turn(self, o, c):
        if c == OBJECT:
            return Reply("immutable")
        self.classes[o] = c
        return DONE

    def share(self, o, other):
        self.dictionaries[o] = self.dictionaries[other]
        return DONE


# What each operation does, and what its operands are. The class that `class` makes is `new`: it isn't made before.
OPERATIONS = {
    "class": (World.new_class, "new", "bases"),
    "bases": (World.set_bases, "class", "bases"),
    "put": (World.put, "class", "name", "value"),
    "cut": (World.cut, "class", "name"),
    "new": (World.new, "class"),
    "set": (World.set, "object", "name", "value"),
    "del": (World.delete, "object", "name"),
    "get": (World.get, "object", "name"),
    "cget": (World.cget, "class", "name"),
    "turn": (World.turn, "object", "class"),
    "share": (World.share, "object", "object"),
    "super": (World.super, "class", "object", "name"),
    "special": (World.special, "object", "name"),
    "classof": (World.classof, "object"),
    "mro": (World.mro, "class"),
}


def classes_named(kind, operand):
    if kind == "class":
        return [operand]
    if kind == "bases":
        return operand
    return [operand.what] if kind == "value" and operand.kind == "class" else []


def step(world, word, operands):
    """Does an operation: its reply. The world counts a place for each write."""
    does, *kinds = OPERATIONS[word]
    named = [c for kind, operand in zip(kinds, operands) for c in classes_named(kind, operand)]
    if any(c not in world.bases for c in named):
        return Reply("noclass")
    reply = does(world, *operands)
    if reply.word in ("done", "made"):
        world.places += 1
    return reply
