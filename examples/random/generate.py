"""Random scripts of all statements: the script of a seed. The reader takes each; most operations find what they name,
and some don't."""

import random
import sys

CLASSES = "ABCDEFGH"
FUNCTIONS = ["f", "g", "h", "k"]
VARIABLES = ["a", "b", "c", "d", "e"]
PLAIN_NAMES = ["x", "x", "x", "y", "y", "z"]
HOOK_NAMES = ["__get__", "__set__", "__delete__", "__getattr__", "__init__"]
OTHER_NAMES = ["__len__", "__iter__"]
# How often each statement stands.
WEIGHTS = {
    "class": 3, "bases": 4, "put": 14, "cut": 3, "new": 10, "set": 14, "del": 6, "get": 16, "turn": 3, "share": 3,
    "super": 5, "special": 4, "classof": 2, "mro": 2, "call": 10, "callsuper": 4, "let": 4, "return": 4, "begin": 3,
    "checkpoint": 2,
}

# After these `it` may have a value.
LEARNING = ("new", "get", "super", "special", "classof", "call", "callsuper")


class Writer:
    """Writes one script."""

    def __init__(self, seed):
        self.random = random.Random(seed)
        self.classes = list(CLASSES[: self.random.randint(1, len(CLASSES))])
        self.functions = FUNCTIONS[: self.random.randint(0, len(FUNCTIONS))]
        self.lines = []

    def is_so(self, chance):
        return self.random.random() < chance

    def line(self, *words):
        self.lines.append(" ".join(word for word in words if word))

    # Words

    def class_(self):
        return "object" if self.is_so(0.04) else self.random.choice(self.classes)

    def name(self, hooks):
        """A name of an attribute; `hooks` is the chance of a name that the data model asks for."""
        if self.is_so(hooks):
            return self.random.choice(HOOK_NAMES)
        return self.random.choice(OTHER_NAMES if self.is_so(0.06) else PLAIN_NAMES)

    def variable(self):
        return self.random.choice(VARIABLES[: 3 if self.is_so(0.9) else None])

    def receiver(self, in_function, class_chance=0.05):
        if self.is_so(class_chance):
            return self.class_()
        if self.is_so(0.5 if in_function else 0.06):
            given = ["self", "self", "self", "other", "arg", "it"] if in_function else ["it", "it", "self"]
            return self.random.choice(given)
        return self.variable()

    def property(self):
        return "prop:" + ",".join(self.random.choice(self.functions + ["-"]) for _ in range(3))

    def callable(self):
        """A value that calls a function."""
        kind = self.random.choice(["", "", "", "static:", "classm:", "prop:"])
        return self.property() if kind == "prop:" else kind + self.random.choice(self.functions)

    def value(self, in_function):
        draw = self.random.random()
        if self.functions and draw < 0.25:
            return self.callable()
        if draw < 0.4:
            return str(self.random.randint(-3, 9))
        if draw < 0.7:
            return self.variable()
        if draw < 0.8:
            return self.random.choice(["self", "arg", "other", "it"] if in_function else ["it", "it", "none"])
        if draw < 0.88:
            return self.class_()
        return self.random.choice(["none", '"x"', '"text"', "2147483647", "-2147483648"])

    def argument(self, in_function):
        return self.value(in_function) if self.is_so(0.6) else ""

    def bases(self):
        return self.random.sample(self.classes, self.random.randint(0, min(3, len(self.classes))))

    # Statements

    def attribute(self, in_function, hooks, class_chance=0.05):
        return f"{self.receiver(in_function, class_chance)}.{self.name(hooks)}"

    def put(self, in_function):
        name = self.name(0.4)
        if name in HOOK_NAMES and self.functions and self.is_so(0.85):
            value = self.random.choice(["", "", "static:"]) + self.random.choice(self.functions)
        elif self.functions and self.is_so(0.2):
            value = self.property()
        elif self.is_so(0.3):
            value = self.variable()
        else:
            value = self.value(in_function)
        self.line("put", f"{self.class_()}.{name}", value)

    def section(self, in_function):
        other = self.receiver(in_function) if self.is_so(0.4) else ""
        self.line("begin", self.receiver(in_function), other)
        for _ in range(self.random.randint(0, 3)):
            self.statement(in_function, without=("begin", "checkpoint", "return"))
        self.line("finish")

    def statement(self, in_function, without=()):
        left_out = without if in_function else (*without, "return")
        words = [word for word in WEIGHTS if word not in left_out]
        word = self.random.choices(words, [WEIGHTS[word] for word in words])[0]
        self.write(word, in_function)
        if word in LEARNING and self.is_so(0.25):
            self.line("set", f"{self.variable()}.{self.name(0)}", "it")

    def write(self, word, in_function):
        if word == "class":
            self.line(word, self.random.choice(self.classes), *self.bases())
        elif word == "bases":
            self.line(word, self.class_(), *self.bases())
        elif word == "put":
            self.put(in_function)
        elif word == "cut":
            self.line(word, f"{self.class_()}.{self.name(0.4)}")
        elif word == "new":
            self.line(word, self.variable(), self.class_(), self.argument(in_function))
        elif word == "set":
            self.line(word, self.attribute(in_function, 0.05), self.value(in_function))
        elif word in ("del", "special"):
            self.line(word, self.attribute(in_function, 0.1))
        elif word == "get":
            self.line(word, self.attribute(in_function, 0.05, class_chance=0.25))
        elif word == "call":
            self.line(word, self.attribute(in_function, 0.05, class_chance=0.25), self.argument(in_function))
        elif word == "super":
            self.line(word, self.class_(), self.attribute(in_function, 0.05))
        elif word == "callsuper":
            self.line(word, self.class_(), self.attribute(in_function, 0.05), self.argument(in_function))
        elif word == "turn":
            self.line(word, self.receiver(in_function), self.class_())
        elif word == "share":
            self.line(word, self.receiver(in_function), self.receiver(in_function))
        elif word == "classof":
            self.line(word, self.receiver(in_function))
        elif word == "mro":
            self.line(word, self.class_())
        elif word == "let":
            self.line(word, self.variable(), self.value(in_function))
        elif word == "return":
            self.line(word, self.random.choice(VARIABLES) if self.is_so(0.3) else self.value(in_function))
        elif word == "begin":
            self.section(in_function)
        else:
            self.line(word)

    # Blocks

    def block(self, most, in_function=False):
        for _ in range(self.random.randint(0, most)):
            self.statement(in_function)
        if in_function and self.is_so(0.5):
            self.write("return", in_function)
        self.line("end")

    def first_classes(self):
        """Most classes, each with bases before it, some objects, and hooks on some classes."""
        for i, c in enumerate(self.classes):
            if self.is_so(0.9):
                bases = self.random.sample(self.classes[:i], min(i, self.random.choice([0, 1, 1, 2, 2, 3])))
                self.line("class", c, *bases)
        for variable in VARIABLES[: self.random.randint(0, 4)]:
            self.line("new", variable, self.random.choice(self.classes))
        for _ in range(self.random.randint(0, 6)):
            self.put(in_function=False)

    def script(self):
        self.line("attrs 1")
        if self.functions or self.is_so(0.9):
            self.line("budget", str(self.random.randint(1, 25) if self.is_so(0.15) else self.random.randint(60, 250)))
        for function in self.functions:
            self.line("func", function)
            self.block(5, in_function=True)
        self.line("main")
        self.first_classes()
        self.block(45)
        for _ in range(self.random.choice([0, 0, 1, 2, 3])):
            self.line("thread")
            self.block(20)
        if self.is_so(0.4):
            self.line("finally")
            self.block(12)
        return "\n".join(self.declared()) + "\n"

    def declared(self):
        """The lines; the last block makes each class that no line makes, so that all are declared."""
        made = {line.split()[1] for line in self.lines if line.startswith("class ")}
        missing = [f"class {c}" for c in self.classes if c not in made]
        return self.lines[:-1] + missing + self.lines[-1:]


def script(seed):
    return Writer(seed).script()


if __name__ == "__main__":
    sys.stdout.write(script(int(sys.argv[1])))
