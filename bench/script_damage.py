"""Scripts, and what damages them."""
import re

MIB = 1 << 20
TOKEN = re.compile(rb'[A-Za-z_]\w*|\d+|\'[^\']*\'|"[^"]*"|\s+|.', re.S)
# what opens, and what closes
PAIRS = (
    (b'(', b')'), (b'[', b']'), (b'{', b'}'), (b'{ ', b';}\n'), (b'if (true) ', b''), (b'-', b''), (b'[', b'][0]'),
    (b'1 + (', b')'), (b'f(', b')'), (b'true ? 1 : ', b''), (b'while (true) {', b'}'), (b'par { ', b'\n}'), (b'!', b''),
    (b'switch (1) { case 1: ', b'}'), (b'/*', b'*/'), (b"{ 'a' => ", b'}'), (b'"$a', b'"'), (b'l[', b']'),
)
NUMBERS = (b'0', b'1', b'200', b'201', b'65535', b'65536', b'9223372036854775807', b'9223372036854775808', b'9' * 40)


def in_bytes(rng, text, _):
    """Some bytes are others."""
    text = bytearray(text or b' ')
    for _ in range(rng.choice((1, 1, 3, 10))):
        text[rng.randrange(len(text))] = rng.randrange(256)
    return bytes(text)


def in_cuts(rng, text, others):
    """A part is left out, stands twice, or another script goes on."""
    begin, end = sorted(rng.randrange(len(text) + 1) for _ in range(2))
    other = rng.choice(others)
    rest = other[rng.randrange(len(other) + 1):]
    return rng.choice((text[:begin], text[:begin] + text[end:], text[:begin] + rest, text[:end] + text[begin:]))


def in_tokens(rng, text, others):
    """Some tokens are those of other scripts, or other numbers, or change places."""
    tokens, strange = TOKEN.findall(text) or [b''], TOKEN.findall(rng.choice(others)) or [b'']
    for _ in range(rng.choice((1, 1, 2, 5))):
        at, other = rng.randrange(len(tokens)), rng.randrange(len(tokens))
        choice = rng.randrange(5)
        if choice == 0:
            tokens[at], tokens[other] = tokens[other], tokens[at]
        elif choice == 1:
            tokens[at] = rng.choice(strange)
        elif choice == 2:
            tokens[at] = rng.choice(NUMBERS)
        else:
            tokens[at:at + rng.randrange(2)] = [rng.choice(tokens)] * rng.randrange(3) or [b' ']
    return b''.join(tokens)


def in_nesting(rng, text, _):
    """A part of it stands within many pairs, well closed or not."""
    tokens = TOKEN.findall(text) or [b'']
    at, (opens, closes) = rng.randrange(len(tokens)), rng.choice(PAIRS)
    deep = int(rng.choice((100, 201, 20_000, 300_000)) ** rng.random()) + rng.choice((0, 0, 198))
    closed = rng.choice((deep, deep, deep - 1, deep + 1, 0))
    return b''.join(tokens[:at]) + opens * deep + tokens[at] + closes * closed + b''.join(tokens[at + 1:])


def in_lines(rng, text, others):
    """Lines of several scripts, some of them many times."""
    lines = text.split(b'\n')
    for _ in range(rng.choice((1, 2, 3))):
        at, strange = rng.randrange(len(lines) + 1), rng.choice(others).split(b'\n')
        times = min(int(rng.choice((1, 10, 2_000, 20_000)) ** rng.random()), MIB // (max(map(len, strange)) + 1) + 1)
        lines[at:at] = [rng.choice(strange)] * times
    return b'\n'.join(lines)


KINDS = {'bytes': in_bytes, 'cuts': in_cuts, 'tokens': in_tokens, 'nesting': in_nesting, 'lines': in_lines}


def damage(rng, texts):
    """A damaged script of one of these, and how it was damaged."""
    kind = rng.choice(list(KINDS))
    return kind, KINDS[kind](rng, rng.choice(texts), texts)
