"""Checkpoint files as lists of their parts, and what damages them."""
import hashlib

# what stands behind the tag of an instruction: b a byte, s 2 bytes, n 4 bytes, w 8 bytes, t a text, y a type, k kinds
OPERANDS = {
    0x00: 'b', 0x01: 'w', 0x02: 't', 0x03: 'y', 0x04: 's', 0x05: 's', 0x06: 's', 0x07: 's', 0x1B: 'yn', 0x1C: 'yn',
    0x1F: 'bskb', 0x20: 'n', 0x21: 'n', 0x23: 'n', 0x25: 'b', 0x29: 'b', 0x32: 'n',
}
WIDTHS = {'b': 1, 's': 2, 'n': 4, 'w': 8}
JUMPS, CALL = (0x20, 0x21), 0x23
MIB = 1 << 20
LIMITS = (255, 1_000, 10_000, 65_535, 100_000, 1 << 20, 1 << 24, 1 << 31, (1 << 32) - 1)


def number(value, size=4):
    return (value % (1 << 8 * size)).to_bytes(size, 'big')


def listed(items):
    return number(len(items)) + b''.join(items)


def text_field(text):
    return number(len(text)) + text


def texts_fields(lists):
    return [listed([text_field(text) for text in texts]) for texts in lists]


class Reader:
    """Reads parts of bytes, from left to right."""

    def __init__(self, data):
        self.data, self.at = data, 0

    def take(self, size):
        self.at += size
        return self.data[self.at - size:self.at]

    def number(self, size=4):
        return int.from_bytes(self.take(size), 'big')

    def text(self):
        return self.take(self.number())

    def several(self, read):
        return [read() for _ in range(self.number())]

    def span(self, read):
        """The bytes of what is read."""
        at = self.at
        read()
        return self.data[at:self.at]

    def ty(self):
        tag = self.number(1)
        return (tag, self.ty()) if tag in (3, 4) else (tag, None)

    def body(self, ty):
        tag, inner = ty
        if tag < 2:
            self.take((1, 8)[tag])
        elif tag == 2:
            self.text()
        else:
            for _ in range(self.number()):
                if tag == 4:
                    self.text()
                self.body(inner)

    def value(self):
        self.body(self.ty())

    def values(self):
        return self.several(lambda: self.span(self.value))

    def types(self):
        return self.several(lambda: self.span(self.ty))

    def operand(self, kind):
        if kind in WIDTHS:
            self.take(WIDTHS[kind])
        elif kind == 'y':
            self.ty()
        else:
            self.text()

    def instruction(self):
        for kind in OPERANDS.get(self.number(1), ''):
            self.operand(kind)

    def function(self):
        name, params, locals_of, ty = self.text(), self.types(), self.types(), self.span(self.ty)
        code = self.several(lambda: self.span(self.instruction))
        labels = self.several(lambda: (self.number(), self.types()))
        return Function(name, params, locals_of, ty, code, labels, [self.take(8) for _ in code])

    def thread(self):
        parent, status = self.take(4), self.take(1)
        ids = self.several(lambda: self.take(5)) if status == b'\x01' else []
        frames = lambda: Frame(self.number(), self.number(), self.values(), self.values())
        return Thread(parent, status, ids, self.values(), self.several(frames))

    def task(self):
        head = self.take(4)
        texts = [self.text(), self.text()]
        files = [self.several(self.text), self.several(self.text)]
        numbers = [self.take(4), self.take(1), self.take(4), self.take(4)]
        needs = self.several(lambda: self.take(4))
        state = self.take(1)
        return Task(head, texts, files, numbers, needs, state + self.take({2: 1, 3: 4}.get(state[0], 0)))

    def rule(self):
        files = [self.several(self.text), self.several(self.text)]
        return Rule(files, self.take(9), [self.text(), self.text()])


class Part:
    """A part of a file, by the names of what it holds."""
    names = ()

    def __init__(self, *held):
        for name, part in zip(self.names, held, strict=True):
            setattr(self, name, part)

    def copied(self):
        parts = [getattr(self, name) for name in self.names]
        return type(self)(*[list(part) if isinstance(part, list) else part for part in parts])


class Function(Part):
    names = 'name', 'params', 'locals_of', 'ty', 'code', 'labels', 'lines'

    def spelled(self):
        labels = [number(place) + listed(types) for place, types in self.labels]
        types = text_field(self.name) + listed(self.params) + listed(self.locals_of) + self.ty
        return types + listed(self.code) + listed(labels) + b''.join(self.lines)

    def replace(self, at, taken, put):
        """Puts instructions in the place of so many, with lines, and moves what stands behind them."""
        moved = lambda place: place + len(put) - taken if place >= at + taken else place
        self.code[at:at + taken], self.lines[at:at + taken] = put, [number(0) + number(1)] * len(put)
        self.labels = [(moved(place), types) for place, types in self.labels]
        jump = lambda code: code[:1] + number(moved(int.from_bytes(code[1:], 'big')))
        self.code = [jump(code) if code[0] in JUMPS else code for code in self.code]


class Frame(Part):
    names = 'function', 'place', 'slots', 'operands'

    def spelled(self):
        return number(self.function) + number(self.place) + listed(self.slots) + listed(self.operands)


class Thread(Part):
    names = 'parent', 'status', 'ids', 'globals_of', 'frames'

    def spelled(self):
        ids = listed(self.ids) if self.status == b'\x01' else b''
        return self.parent + self.status + ids + listed(self.globals_of) + listed([it.spelled() for it in self.frames])


class Task(Part):
    names = 'maker', 'texts', 'files', 'numbers', 'needs', 'state'

    def spelled(self):
        texts = [text_field(text) for text in self.texts]
        return b''.join([self.maker, *texts, *texts_fields(self.files), *self.numbers, listed(self.needs), self.state])


class Rule(Part):
    names = 'files', 'numbers', 'texts'

    def spelled(self):
        return b''.join([*texts_fields(self.files), self.numbers, *[text_field(text) for text in self.texts]])


class State(Part):
    names = 'version', 'path', 'files', 'globals_of', 'functions', 'threads', 'tasks', 'rules'

    @staticmethod
    def read(data):
        it = Reader(data)
        assert it.take(4) == b'BDSC'
        front = it.take(1), it.text(), it.several(it.text), it.types()
        return State(*front, *[it.several(read) for read in (it.function, it.thread, it.task, it.rule)])

    def spelled(self):
        front = b'BDSC' + self.version + text_field(self.path) + texts_fields([self.files])[0] + listed(self.globals_of)
        parts = self.functions, self.threads, self.tasks, self.rules
        return summed(front + b''.join(listed([it.spelled() for it in some]) for some in parts))


def summed(front):
    """A file of what stands before its sum, which one of version 1 hasn't."""
    return front + hashlib.sha256(front).digest() if front[4:5] == b'\x02' else front


def odd(rng, value, most):
    """Another number in the place of this one."""
    near = [0, 1, value - 1, value + 1, most, most + 1]
    return rng.choice([*near, rng.randrange(most + 2), rng.choice(LIMITS)]) % (1 << 32)


def any_of(rng, items, other):
    return rng.choice(items) if items else other


def spread(rng, items, most):
    """Has one of the items stand there many times, which make 2 MiB at most."""
    if items:
        at = rng.randrange(len(items))
        times = min(int(most ** rng.random()), 2 * MIB // len(items[at].spelled()))
        items[at:at] = [items[at].copied() for _ in range(times)]


def value_of(rng, states):
    """A value of one of the states, or one that nests deep or holds much."""
    frames = [frame for state in states for thread in state.threads for frame in thread.frames]
    values = [value for frame in frames for value in frame.slots + frame.operands] or [b'\x00\x01']
    choice = rng.randrange(8)
    if choice == 0:
        deep = rng.choice((1, 10, 199, 200, 201))
        return b'\x03' * deep + b'\x01' + number(1) * (deep - 1) + number(0)
    if choice == 1:
        deep, count = rng.choice((1, 2, 20, 199)), rng.choice((10, 1_000, 20_000, 100_000))
        return b'\x03' * (deep + 1) + b'\x01' + number(count) + number(0) * count
    return rng.choice(values)


def in_code(rng, state, states):
    """Instructions at odd places."""
    function = rng.choice(state.functions)
    others = [code for it in states for other in it.functions for code in other.code]
    jump = lambda: bytes([rng.choice(JUMPS)]) + number(rng.randrange(len(function.code) + 1))
    call = lambda: bytes([CALL]) + number(rng.randrange(len(state.functions) + 1))
    some = lambda: rng.choice([rng.choice(others), rng.choice(others), jump(), call(), b'\x22', b'\x24'])
    for _ in range(rng.choice((1, 1, 2, 5))):
        at = rng.randrange(len(function.code) + 1)
        times = int(rng.choice((1, 1, 1, 1, 3_000)) ** rng.random())
        put = [some() for _ in range(rng.choice((0, 1, 1, 2, 4)))] * times
        if rng.random() < 0.2 and function.labels:
            put = [b'\x20' + number(rng.choice(function.labels)[0])] * rng.choice((1, 100, 5_000, 20_000))
            at = len(function.code)
        function.replace(at, rng.choice((0, 0, 1, 1, 3)), put)
    if rng.random() < 0.3:
        stack = any_of(rng, function.labels, (0, []))[1] * rng.choice((1, 1, 40, 2_000))
        label = rng.randrange(len(function.code) + 1), stack
        function.labels = sorted([*function.labels, label], key=lambda it: it[0])


def in_frames(rng, state, states):
    """Frames at odd places."""
    threads = [it for it in state.threads if it.frames] or state.threads
    thread = rng.choice(threads)
    if not thread.frames:
        return in_threads(rng, state, states)
    for _ in range(rng.choice((1, 1, 3))):
        frame, choice = rng.choice(thread.frames), rng.randrange(7)
        code = any_of(rng, [it.code for n, it in enumerate(state.functions) if n == frame.function], [])
        behind = [at + 1 for at, it in enumerate(code) if it[0] == CALL]
        if choice == 0:
            frame.place = any_of(rng, behind, 0) if rng.random() < 0.7 else odd(rng, frame.place, len(code))
        elif choice == 1:
            frame.function = odd(rng, frame.function, len(state.functions))
        elif choice == 2:
            spread(rng, thread.frames, 1_100)
        elif choice == 3:
            rng.shuffle(thread.frames)
        else:
            values = rng.choice((frame.slots, frame.operands, thread.globals_of))
            at = rng.randrange(len(values) + 1)
            values[at:at + rng.randrange(2)] = [value_of(rng, states)] * rng.randrange(3)
    return None


def in_threads(rng, state, _):
    """Threads and what they wait for."""
    for _ in range(rng.choice((1, 1, 3))):
        thread, choice = rng.choice(state.threads), rng.randrange(5)
        if choice == 0:
            thread.status = number(rng.randrange(4), 1)
        elif choice == 1:
            thread.parent = number(odd(rng, 0, len(state.threads)))
        elif choice == 2:
            spread(rng, state.threads, 10_100)
        elif choice == 3:
            rng.shuffle(state.threads)
        else:
            thread.status, most = b'\x01', len(state.tasks) + len(state.threads)
            some = range(rng.choice((0, 1, 3, 1_000)))
            thread.ids = [number(rng.randrange(2), 1) + number(rng.randrange(most + 2)) for _ in some]


def in_tasks(rng, state, states):
    """Tasks and rules at odd places."""
    tables = [it for it in (state.tasks, state.rules) if it]
    tables = tables or [it for other in states for it in (other.tasks, other.rules) if it]
    table = any_of(rng, tables, state.tasks)
    for _ in range(rng.choice((1, 1, 3))):
        if not table:
            return
        part, choice = rng.choice(table), rng.randrange(7)
        if choice == 0:
            spread(rng, table, 20_000)
        elif choice == 1:
            rng.shuffle(table)
        elif choice == 2:
            some = rng.choice(part.files)
            named = lambda n: any_of(rng, some, b'a') + (b'%d' % n if rng.random() < 0.5 else b'')
            some[:] = [named(n) for n in range(rng.choice((0, 1, 2, 500)))]
        elif isinstance(part, Rule):
            part.numbers = number(odd(rng, 1, 1_000_000)) + part.numbers[4:5] + number(odd(rng, 0, 1_000))
        elif choice == 3:
            part.needs = sorted(number(rng.randrange(len(table) + 1)) for _ in range(rng.choice((0, 1, 2, 50))))
        elif choice == 4:
            cancelled = b'\x03' + number(rng.randrange(len(table) + 1))
            part.state = rng.choice((b'\x00', b'\x01', b'\x02\x00', b'\x02\x01', cancelled))
        else:
            part.numbers[rng.choice((0, 2, 3))] = number(odd(rng, 1, rng.choice((1_000, 1_000_000))))
    if table not in (state.tasks, state.rules):
        state.tasks += [it.copied() for it in table if isinstance(it, Task)]
        state.rules += [it.copied() for it in table if isinstance(it, Rule)]


def in_bytes(rng, data, _):
    """Some bytes are others."""
    data = bytearray(data)
    for _ in range(rng.choice((1, 1, 2, 8))):
        data[rng.randrange(len(data))] = rng.choice((rng.randrange(256), rng.randrange(8)))
    return bytes(data)


def in_cuts(rng, data, others):
    """A part is left out, or another file goes on."""
    begin, end = sorted(rng.randrange(len(data) + 1) for _ in range(2))
    other = rng.choice(others)
    rest = other[rng.randrange(len(other)):]
    return rng.choice((data[:begin], data[:begin] + data[end:], data[:begin] + rest, data[:end] + data[begin:]))


def in_counts(rng, data, _):
    """Some numbers of four bytes are others."""
    small = [at for at in range(5, len(data) - 4) if data[at:at + 2] == b'\x00\x00']
    for _ in range(rng.choice((1, 1, 2, 4))):
        at = any_of(rng, small, 5)
        value = int.from_bytes(data[at:at + 4], 'big')
        data = data[:at] + number(odd(rng, value, rng.choice(LIMITS))) + data[at + 4:]
    return data


PARTS = {'code': in_code, 'frames': in_frames, 'threads': in_threads, 'tasks': in_tasks}
ANYWHERE = {'bytes': in_bytes, 'cuts': in_cuts, 'counts': in_counts}
KINDS = (*ANYWHERE, *PARTS, 'parts')


def damage(rng, images):
    """A damaged file of one of these, of 4 MiB at most, and how it was damaged."""
    while True:
        kind, data = damaged(rng, images)
        if len(data) <= 4 * MIB:
            return kind, data


def damaged(rng, images):
    """The same, of any size."""
    kind, data = rng.choice(KINDS), rng.choice(images)
    front = data[:-32]
    if rng.random() < 0.2:
        front = front[:4] + b'\x01' + front[5:]
    if kind in ANYWHERE:
        made = ANYWHERE[kind](rng, front, images)
        made = summed(made) if rng.random() < 0.9 else made + data[-32:]
        return kind, made
    state, states = State.read(front), [State.read(rng.choice(images)) for _ in range(2)]
    for name in rng.choices(list(PARTS), k=3) if kind == 'parts' else [kind]:
        PARTS[name](rng, state, states)
    return kind, state.spelled()
