#!/usr/bin/env python3
"""A second reader of scripts, by the rules of docs/SCRIPTS.md, and its comparison with the proved program.

    examples/offences.py read < SCRIPT     writes `script`, or `LINE CAUSE` of the first offence
    examples/offences.py compare [--all]   changes each byte of two scripts and cuts them everywhere, and compares what
                                           crates/attrs/out/attrs says with what this reader says

`compare` puts each byte of BYTES in the place of each byte; with --all, each of the 256. It runs the program once a text,
on all processors, writes each difference and how many texts there were, and ends with status 1 where any differs.
"""

import os
import re
import subprocess
import sys
from concurrent.futures import ThreadPoolExecutor

CAUSES = "byte header word place form number name class func limit end".split()

# What stands after each first word. R, C, F, a and V are as in docs/SCRIPTS.md; S is the class that a line makes, G the
# function that a line begins, N a number of statements, `.` an attribute after its owner; `?` may be left out.
FORMS = {
    "budget": "N", "func": "G", "main": "", "thread": "", "finally": "", "end": "",
    "class": "S" + " C?" * 8, "bases": "C" + " C?" * 8,
    "put": "C. V", "cut": "C.", "new": "a C V?", "set": "R. V", "del": "R.", "get": "R.", "turn": "R C", "share": "R R",
    "super": "C R.", "special": "R.", "classof": "R", "mro": "C", "call": "R. V?", "callsuper": "C R. V?",
    "let": "a V", "return": "V", "begin": "R R?", "finish": "", "checkpoint": "",
}  # fmt: skip
BLOCKS = {"func", "main", "thread", "finally"}
STATEMENTS = FORMS.keys() - BLOCKS - {"budget", "end"}

REGISTERS = {"self", "arg", "other", "it"}
RESERVED = REGISTERS | {"none", "object"}
SYSTEM_NAMES = {
    f"__{name}__"
    for name in "get set delete getattr init len bool iter next enter exit contains getitem".split()
}
LONGEST = 32
MOST = {"bytes": 1_048_576, "S": 255, "G": 1024, "variable": 1024, "name": 4096, "thread": 32}
SPECIAL_NAMES = {"__get__", "__set__", "__delete__", "__getattr__", "__init__"}

IDENTIFIER = re.compile(r"[A-Za-z_][A-Za-z0-9_]*")
NUMBER = re.compile(r"0|-?[1-9][0-9]*")
ALLOWED = re.compile(rb"[\x20-\x7e\t\r]*\n?")


class Malformed(Exception):
    """An operand isn't of its form, or there are too many words or too few."""


def identifier(word):
    if not IDENTIFIER.fullmatch(word):
        raise Malformed
    return word


def number(word):
    if not NUMBER.fullmatch(word):
        raise Malformed
    return int(word)


def uses_of_value(word):
    """What stands in a value, each with its kind."""
    if word == "none":
        return []
    if IDENTIFIER.fullmatch(word):
        return [("V", word)]
    if NUMBER.fullmatch(word):
        return [("number", int(word))]
    if len(word) > 1 and word[0] == word[-1] == '"':
        return [("text", identifier(word[1:-1]))]
    kind, colon, functions = word.partition(":")
    if kind == "prop" and functions.count(",") == 2:
        return [("F", identifier(part)) for part in functions.split(",") if part != "-"]
    if kind in ("static", "classm") and colon:
        return [("F", identifier(functions))]
    raise Malformed


def uses_of_operand(kind, word):
    if kind == "V":
        return uses_of_value(word)
    if kind == "N":
        return [("N", number(word))]
    if kind[-1] == ".":
        owner, dot, name = word.partition(".")
        if not dot:
            raise Malformed
        return [(kind[0], identifier(owner)), ("attribute", identifier(name))]
    return [(kind, identifier(word))]


def uses_of(keyword, words):
    """What the words after a first word stand for, each with its kind."""
    kinds = FORMS[keyword].split()
    least = sum(kind[-1] != "?" for kind in kinds)
    if not least <= len(words) <= len(kinds):
        raise Malformed
    return [use for kind, word in zip(kinds, words) for use in uses_of_operand(kind.rstrip("?"), word)]


def words_of(line):
    return line.decode("latin-1").replace("\t", " ").replace("\r", " ").replace("\n", " ").split(" ")


def said_by(line):
    """The words of a line, none where it is skipped."""
    words = [word for word in words_of(line) if word]
    return [] if words and words[0].startswith("#") else words


def is_free(word):
    return len(word) <= LONGEST and word not in RESERVED


class Reader:
    """What the lines so far say, and what the whole text declares."""

    def __init__(self, lines):
        self.declared = {"class": {"object"}, "func": set()}
        for words in map(said_by, lines):
            if len(words) > 1 and words[0] in self.declared:
                if IDENTIFIER.fullmatch(words[1]) and is_free(words[1]):
                    self.declared[words[0]].add(words[1])
        self.block = None
        self.section = False
        self.last = "attrs"
        self.begun = set()
        self.counted = {"S": {"object"}, "G": set(), "variable": set(), "name": set(SPECIAL_NAMES)}
        self.threads = 0
        self.bytes = 0

    def meaning(self, word):
        """A function, else a class, else a variable."""
        return next((kind for kind in ("func", "class") if word in self.declared[kind]), "variable")

    def may_stand(self, keyword):
        if self.block is None:
            follow = {
                "attrs": {"budget", "func", "main"},
                "budget": {"func", "main"},
                "func": {"func", "main"},
                "main": {"thread", "finally"},
                "thread": {"thread", "finally"},
                "finally": set(),
            }
            return keyword in follow[self.last]
        if keyword in ("end", "begin", "checkpoint"):
            return not self.section
        if keyword == "finish":
            return self.section
        if keyword == "return":
            return self.block == "func" and not self.section
        return keyword in STATEMENTS

    def cause_of_use(self, kind, word):
        """What is wrong with a part of a line by itself, or None."""
        if kind == "number":
            return None if -(2**31) <= word < 2**31 else "number"
        if kind == "N":
            return None if 1 <= word <= 100_000 else "number"
        if len(word) > LONGEST:
            return "name"
        if kind in ("attribute", "text"):
            system = word.startswith("__") and word.endswith("__") and word not in SYSTEM_NAMES
            refused = word in RESERVED or kind == "attribute" and (word == "mro" or system)
            return "name" if refused else None
        if kind in ("R", "V") and word in REGISTERS:
            return None
        if word in RESERVED and not (word == "object" and kind in ("C", "R", "V")):
            return "name"
        return self.cause_of_meaning(kind, word)

    def cause_of_meaning(self, kind, word):
        """What is wrong with an identifier by what it stands for."""
        meaning = self.meaning(word)
        wanted = {"S": "class", "C": "class", "F": "func", "G": "func", "a": "variable"}.get(kind)
        if kind == "G" and word in self.begun:
            return "name"
        if kind == "R":
            return "name" if meaning == "func" else None
        if wanted is None or meaning == wanted:
            return None
        if wanted == "variable" or meaning != "variable" or word in self.counted["variable"]:
            return "name"
        return wanted

    def is_above_limit(self, keyword, uses, line):
        counted = {kind: set(words) for kind, words in self.counted.items()}
        for kind, word in uses:
            if kind in ("S", "G"):
                counted[kind].add(word)
            elif kind in ("attribute", "text"):
                counted["name"].add(word)
            elif kind == "a" or kind in ("R", "V") and word not in RESERVED and self.meaning(word) == "variable":
                counted["variable"].add(word)
        self.counted = counted
        self.threads += keyword == "thread"
        self.bytes += len(line)
        return (
            any(len(words) > MOST[kind] for kind, words in counted.items())
            or self.threads > MOST["thread"]
            or self.bytes > MOST["bytes"]
        )

    def cause_of(self, line, is_first):
        """The first of the causes that a line has, or None; the line is read."""
        if not ALLOWED.fullmatch(line):
            return "byte"
        if is_first:
            self.bytes += len(line)
            return None if [word for word in words_of(line) if word] == ["attrs", "1"] else "header"
        words = said_by(line)
        if not words:
            return "limit" if self.is_above_limit(None, [], line) else None
        keyword = words[0]
        if keyword not in FORMS:
            return "place" if keyword == "attrs" else "word"
        if not self.may_stand(keyword):
            return "place"
        try:
            uses = uses_of(keyword, words[1:])
        except Malformed:
            return "form"
        causes = {self.cause_of_use(kind, word) for kind, word in uses} - {None}
        if self.is_above_limit(keyword, uses, line):
            causes.add("limit")
        self.move_past(keyword, words)
        return min(causes, key=CAUSES.index, default=None)

    def move_past(self, keyword, words):
        if keyword in BLOCKS:
            self.block = self.last = keyword
        elif keyword == "budget":
            self.last = keyword
        elif keyword == "end":
            self.block = None
        elif keyword in ("begin", "finish"):
            self.section = keyword == "begin"
        if keyword == "func":
            self.begun.add(words[1])


def first_offence(text):
    """The first line with an offence and its cause, or None where the text is a script."""
    lines = re.findall(rb"[^\n]*\n|[^\n]+\Z", text)
    reader = Reader(lines)
    for at, line in enumerate(lines):
        cause = reader.cause_of(line, at == 0)
        if cause:
            return at + 1, cause
    if not lines:
        return 1, "header"
    if reader.block is not None or reader.last in ("attrs", "budget", "func"):
        return len(lines) + 1, "end"
    return None


SCRIPTS = [
    b"""attrs 1
budget 100000
func f
  let v arg
  return it
end
main
class C
class D C object
class E
bases E C
put C.x prop:f,-,f
put D.y static:f
new a D -2147483647
set a.z "word"
get a.x
super D a.__len__
callsuper D a.m none
classof a
end
thread
mro D
end
""",
    b"""attrs 1
# D is made below
func g

begin self other
finish
return classm:g
end
main
new b D it
class D
call b.get 0
cut D.w
special b.w
del b.w
turn b object
share b b
checkpoint
begin b
let n D
finish
end
finally
end""",
]

# A newline, blanks, what stands between the parts of an operand, digits, letters of the scripts, bytes not allowed.
BYTES = b'\n \t#"-.,:019_aCDfgx\x00\x7f\x80'

PROGRAM = os.path.join(os.path.dirname(os.path.abspath(__file__)), "../crates/attrs/out/attrs")


def changed_texts(script, values):
    """The script with each byte changed to each value, and its beginnings."""
    for at, byte in enumerate(script):
        for value in values:
            if value != byte:
                yield script[:at] + bytes([value]) + script[at + 1 :]
    for at in range(len(script) + 1):
        yield script[:at]


def expected(text):
    offence = first_offence(text)
    return (1, b"refused %d %s\n" % (offence[0], offence[1].encode())) if offence else (0, b"attrs transcript 1\n")


def answer(text):
    """The status of the program, and the first line that it writes."""
    run = subprocess.run([PROGRAM, "run"], input=text, stdout=subprocess.PIPE, check=False)
    return run.returncode, run.stdout.partition(b"\n")[0] + b"\n"


def compare(values):
    texts = [text for script in SCRIPTS for text in changed_texts(script, values)]
    wanted = [expected(text) for text in texts]
    with ThreadPoolExecutor(os.cpu_count()) as pool:
        answers = list(pool.map(answer, texts))
    differences = [row for row in zip(texts, wanted, answers) if row[1] != row[2]]
    for text, want, given in differences:
        print(f"{text!r}: {given} and not {want}")
    accepted = sum(status == 0 for status, _ in wanted)
    causes = {cause: sum(f" {cause}\n".encode() in said for _, said in wanted) for cause in CAUSES}
    print(f"{len(texts)} texts, {accepted} of them scripts; refused: {causes}; {len(differences)} differences")
    return 1 if differences else 0


def main(words):
    if words == ["read"]:
        offence = first_offence(sys.stdin.buffer.read())
        print(f"{offence[0]} {offence[1]}" if offence else "script")
        return 0
    if words == ["compare"]:
        return compare(BYTES)
    if words == ["compare", "--all"]:
        return compare(range(256))
    print(__doc__, file=sys.stderr)
    return 2


if __name__ == "__main__":
    sys.exit(main(sys.argv[1:]))
