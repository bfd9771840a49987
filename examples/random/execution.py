"""How a script is executed, one thread after another, and its transcript. Written from docs/SCRIPTS.md and
docs/TRANSCRIPTS.md alone."""

from model import NONE, OPERATIONS, Value, World, step

MOST_CALLS = 16


class Ended(Exception):
    """A thread has used its budget up."""


class Failed(Exception):
    """An operand has no value, or one of another kind; a line was written."""


class Call:
    """A block, or an active call of a function."""

    def __init__(self, receiver=NONE, other=NONE, argument=NONE):
        self.given = {"self": receiver, "other": other, "arg": argument}
        self.is_open = False


class Thread:
    def __init__(self, run, name, variables):
        self.run = run
        self.name = name
        self.variables = dict(variables)
        self.it = NONE
        self.begun = 0
        self.calls = 0
        self.lines = 0

    def say(self, rest):
        self.lines += 1
        self.run.lines.append(f"{self.name} {self.lines} {rest}")

    def local(self, word):
        self.say(f"- local {word}")

    def do(self, word, operands):
        """Does an operation, and writes its line."""
        reply = step(self.run.world, word, operands)
        self.say(f"{self.run.world.places} locked {self.run.operation(word, operands)} = {self.run.reply(reply)}")
        return reply

    def execute(self, block):
        """Executes a block to its end, or until the budget is used up."""
        try:
            self.statements(block, Call())
        except Ended:
            self.local("budget")

    def statements(self, block, call):
        """Executes statements to their end, or to the first `return`: the result."""
        for word, operands in block:
            if self.begun == self.run.script.budget:
                raise Ended
            self.begun += 1
            if word == "return":
                return self.returned(operands[0], call)
            try:
                self.it = STATEMENTS[word](self, word, operands, call)
            except Failed:
                self.it = NONE
        return NONE

    def returned(self, operand, call):
        try:
            return self.value(operand, call)
        except Failed:
            return NONE

    # Operands

    def value(self, operand, call):
        if isinstance(operand, Value):
            return operand
        if operand == "it":
            return self.it
        if isinstance(operand, str):
            return call.given[operand]
        name = operand[1]
        if name not in self.variables:
            self.local(f"unbound {name}")
            raise Failed
        return self.variables[name]

    def given(self, operands, call):
        """The value that comes last, and none where it is left out."""
        return self.value(operands[0], call) if operands else NONE

    def receiver(self, operand, call, kinds=("obj",)):
        value = self.value(operand, call)
        if value.kind not in kinds:
            self.local("kind")
            raise Failed
        return value

    def object(self, operand, call):
        return self.receiver(operand, call).what

    # Calls

    def called(self, function, call):
        """The result of a function; none where too many calls are active."""
        if self.calls == MOST_CALLS:
            self.local("depth")
            return NONE
        self.calls += 1
        result = self.statements(self.run.script.functions[function], call)
        self.calls -= 1
        return result

    def hooked(self, callee, receiver, other, argument):
        """The result of a hook or an `__init__`."""
        if callee.kind == "func":
            return self.called(callee.what, Call(receiver, other, argument))
        if callee.kind == "static":
            return self.called(callee.what, Call(NONE, other, argument))
        self.local("notcallable")
        return NONE

    def read(self, reply):
        """What a read gives: the value, or the result of the hook."""
        if reply.word == "value":
            return reply.carries[0]
        return self.hooked(*reply.carries[1:]) if reply.word == "hook" else NONE

    def called_on(self, reply, argument):
        """What a call of what was read gives."""
        if reply.word == "method":
            function, receiver = reply.carries
            return self.called(function, Call(receiver, NONE, argument))
        if reply.word == "value" and reply.carries[0].kind == "func":
            return self.called(reply.carries[0].what, Call(NONE, NONE, argument))
        if reply.word == "value":
            self.local("notcallable")
            return NONE
        return self.read(reply)

    # Statements: each gives what `it` is at its end.

    def of_classes(self, word, operands, call):
        self.do(word, operands)
        return NONE

    def of_name(self, word, operands, call):
        """`put` and `cut`."""
        c, name, *rest = operands
        self.do(word, [c.what, name] + [self.value(operand, call) for operand in rest])
        return NONE

    def of_objects(self, word, operands, call):
        """`turn`, whose second operand is a class, and `share`."""
        o, other = operands
        self.do(word, [self.object(o, call), other if word == "turn" else self.object(other, call)])
        return NONE

    def new(self, word, operands, call):
        variable, c, *rest = operands
        argument = self.given(rest, call)
        reply = self.do(word, [c])
        if reply.word != "made":
            return NONE
        o, init = reply.carries
        made = self.variables[variable] = Value("obj", o)
        if init is not None:
            self.hooked(init, made, NONE, argument)
        return made

    def write(self, word, operands, call):
        """`set` and `del`."""
        receiver, name, *rest = operands
        o = self.object(receiver, call)
        reply = self.do(word, [o, name] + [self.value(operand, call) for operand in rest])
        if reply.word == "hook":
            self.hooked(*reply.carries[1:])
        return NONE

    def get(self, word, operands, call):
        """`get` and `call`, of an object or a class."""
        receiver, name, *rest = operands
        value = self.receiver(receiver, call, ("obj", "class"))
        argument = self.given(rest, call)
        reply = self.do("get" if value.kind == "obj" else "cget", [value.what, name])
        return self.called_on(reply, argument) if word == "call" else self.read(reply)

    def super(self, word, operands, call):
        """`super` and `callsuper`."""
        after, receiver, name, *rest = operands
        o = self.object(receiver, call)
        argument = self.given(rest, call)
        reply = self.do("super", [after, o, name])
        return self.called_on(reply, argument) if word == "callsuper" else self.read(reply)

    def of_object(self, word, operands, call):
        """`special` and `classof`."""
        receiver, *rest = operands
        return self.read(self.do(word, [self.object(receiver, call), *rest]))

    def let(self, word, operands, call):
        variable, operand = operands
        self.variables[variable] = self.value(operand, call)
        return self.it

    def begin(self, word, operands, call):
        objects = [self.object(operand, call) for operand in operands]
        self.section(word, list(dict.fromkeys(objects)), "done")
        call.is_open = True
        return NONE

    def finish(self, word, operands, call):
        if call.is_open:
            self.section(word, [], "kept")
        call.is_open = False
        return NONE

    def section(self, word, objects, reply):
        operation = " ".join([word] + [f"#{o}" for o in objects])
        self.say(f"{self.run.world.places} locked {operation} = {reply}")

    def checkpoint(self, word, operands, call):
        return self.it


STATEMENTS = {
    "class": Thread.of_classes,
    "bases": Thread.of_classes,
    "mro": Thread.of_classes,
    "put": Thread.of_name,
    "cut": Thread.of_name,
    "turn": Thread.of_objects,
    "share": Thread.of_objects,
    "new": Thread.new,
    "set": Thread.write,
    "del": Thread.write,
    "get": Thread.get,
    "call": Thread.get,
    "super": Thread.super,
    "callsuper": Thread.super,
    "special": Thread.of_object,
    "classof": Thread.of_object,
    "let": Thread.let,
    "begin": Thread.begin,
    "finish": Thread.finish,
    "checkpoint": Thread.checkpoint,
}


class Run:
    """The run of a script: `main`, each thread in turn, then `finally`, with the variables that `main` left."""

    def __init__(self, script):
        self.script = script
        self.world = World()
        self.lines = []
        main = Thread(self, "m", {})
        main.execute(script.main)
        blocks = [(f"t{i}", block) for i, block in enumerate(script.threads, 1)]
        if script.final is not None:
            blocks.append(("f", script.final))
        for name, block in blocks:
            Thread(self, name, main.variables).execute(block)

    # Words of the transcript

    def value(self, value):
        if value.kind == "none":
            return "none"
        if value.kind == "text":
            return f'"{value.what}"'
        if value.kind == "class":
            return self.script.classes[value.what]
        if value.kind == "obj":
            return f"#{value.what}"
        if value.kind == "prop":
            return "prop:" + ",".join(part or "-" for part in value.what)
        return f"{value.kind}:{value.what}" if value.kind in ("static", "classm") else str(value.what)

    def classes(self, numbers):
        return [self.script.classes[c] for c in numbers]

    def operation(self, word, operands):
        words = [word]
        for kind, operand in zip(OPERATIONS[word][1:], operands):
            if kind == "name":
                words[-1] += f".{operand}"
            elif kind == "object":
                words.append(f"#{operand}")
            elif kind == "value":
                words.append(self.value(operand))
            else:
                words += self.classes(operand if kind == "bases" else [operand])
        return " ".join(words)

    def reply(self, reply):
        if reply.word == "made":
            o, init = reply.carries
            return f"made #{o}" if init is None else f"made #{o} init {self.value(init)}"
        if reply.word in ("order", "noorder"):
            carried = self.classes(reply.carries)
        else:
            carried = [self.value(part) if isinstance(part, Value) else part for part in reply.carries]
        return " ".join([reply.word, *carried])

    def own(self, names):
        return [f".{name} {self.value(names[name])}" for name in sorted(names)]

    def last(self):
        lines = []
        for c in sorted(self.world.bases):
            order = self.classes(self.world.order(c))
            lines.append(" ".join(["class", self.script.classes[c], "=", *order]))
            lines += self.own(self.world.own[c])
        for o, c in enumerate(self.world.classes):
            lines.append(f"object #{o} {self.script.classes[c]}")
            lines += self.own(self.world.dictionary(o))
        return lines

    def transcript(self):
        text = self.script.text
        head = ["attrs transcript 1", f"script {len(text)}", text, f"lines {len(self.lines)}"]
        return "\n".join(head + self.lines + ["final"] + self.last() + ["end", ""])
