"""Scripts: what their lines say. Written from docs/SCRIPTS.md alone. Only texts that are scripts are read."""

from model import NONE, Value

RESERVED = ("self", "arg", "other", "it")
BLOCKS = ("func", "main", "thread", "finally")
# The words of a statement after its first: C a class, A a variable to be bound, . an attribute of what stands before it,
# R a receiver, V a value. `class` and `bases` have a class and then others.
OPERANDS = {
    "put": ".V",
    "cut": ".",
    "new": "ACV",
    "set": ".V",
    "del": ".",
    "get": ".",
    "turn": "RC",
    "share": "RR",
    "super": "C.",
    "special": ".",
    "classof": "R",
    "mro": "C",
    "call": ".V",
    "callsuper": "C.V",
    "let": "AV",
    "return": "V",
    "begin": "RR",
    "finish": "",
    "checkpoint": "",
}


class Script:
    """The blocks of a script, each a list of statements: a word and its operands. An operand is a class's number, the
    name of a variable or an attribute, or what is evaluated: a value, a word of RESERVED, or ("variable", NAME)."""

    def __init__(self, text):
        self.text = text
        self.budget = 10_000
        self.classes = ["object"]
        self.functions = {}
        self.main = []
        self.threads = []
        self.final = None
        lines = [line.split() for line in text.split("\n")]
        lines = [words for words in lines if words and not words[0].startswith("#")]
        for words in lines:
            if words[0] == "class" and words[1] not in self.classes:
                self.classes.append(words[1])
            elif words[0] == "func":
                self.functions[words[1]] = []
        self.read(lines)

    def read(self, lines):
        block = None
        for words in lines:
            if words[0] == "budget":
                self.budget = int(words[1])
            elif words[0] in BLOCKS:
                block = self.begun_block(words)
            elif words[0] not in ("attrs", "end"):
                block.append(self.statement(words))

    def begun_block(self, words):
        if words[0] == "func":
            return self.functions[words[1]]
        if words[0] == "main":
            return self.main
        if words[0] == "thread":
            self.threads.append([])
            return self.threads[-1]
        self.final = []
        return self.final

    def statement(self, words):
        word, given = words[0], words[1:]
        if word in ("class", "bases"):
            classes = [self.classes.index(c) for c in given]
            bases = classes[1:] or ([0] if word == "class" else [])
            return word, [classes[0], bases]
        return word, [part for form, text in zip(OPERANDS[word], given) for part in self.operand(form, text)]

    def operand(self, form, text):
        if form == ".":
            receiver, name = text.split(".")
            return [self.value(receiver), name]
        if form == "C":
            return [self.classes.index(text)]
        return [text] if form == "A" else [self.value(text)]

    def value(self, text):
        """What is evaluated: a value as it is, or what says where its value stands."""
        kind, _, rest = text.partition(":")
        if text in RESERVED:
            return text
        if text == "none":
            return NONE
        if text.lstrip("-").isdigit():
            return Value("int", int(text))
        if text.startswith('"'):
            return Value("text", text.strip('"'))
        if kind == "prop" and rest:
            return Value("prop", tuple(None if part == "-" else part for part in rest.split(",")))
        if rest:
            return Value(kind, rest)
        if text in self.functions:
            return Value("func", text)
        if text in self.classes:
            return Value("class", self.classes.index(text))
        return "variable", text
