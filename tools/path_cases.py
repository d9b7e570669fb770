#!/usr/bin/env python3
"""Write a table of path texts and the results of reading them.

Usage: python3 path_cases.py DIR

DIR/stdin   one text a line
DIR/stdout  for each text the long form or "NUMBER PLACE", then the totals
"""

import functools, itertools, os, re, sys

# ---- Regular expressions over bytes ----
# The makers below keep expressions simplified: NONE is never a part of
# another expression, so a language is empty exactly if it is NONE.

NONE = ("none",)        # no text at all
EMPTY = ("empty",)      # the empty text only

def one_of(some):
    return ("one_of", frozenset(some))

def cat(first, *more):
    if not more:
        return first
    rest = cat(*more)
    if NONE in (first, rest):
        return NONE
    if EMPTY in (first, rest):
        return rest if first == EMPTY else first
    if first[0] == "cat":       # lean to the right
        return cat(first[1], first[2], rest)
    return ("cat", first, rest)

def alt(*parts):
    choices = set()
    for part in parts:
        choices |= part[1] if part[0] == "alt" else {part}
    choices.discard(NONE)
    if len(choices) > 1:
        return ("alt", frozenset(choices))
    return choices.pop() if choices else NONE

def word(text):
    return cat(*(one_of([byte]) for byte in text))

@functools.lru_cache(None)
def has_empty(expr):
    """Is the empty text in the language?"""
    kind = expr[0]
    if kind == "cat":
        return has_empty(expr[1]) and has_empty(expr[2])
    if kind == "alt":
        return any(map(has_empty, expr[1]))
    return kind in ("empty", "star")

@functools.lru_cache(None)
def derive(expr, byte):
    """What may follow the byte, in the texts that begin with it."""
    kind = expr[0]
    if kind == "one_of":
        return EMPTY if byte in expr[1] else NONE
    if kind == "cat":
        rest = cat(derive(expr[1], byte), expr[2])
        if has_empty(expr[1]):
            rest = alt(rest, derive(expr[2], byte))
        return rest
    if kind == "alt":
        return alt(*(derive(part, byte) for part in expr[1]))
    if kind == "star":
        return cat(derive(expr[1], byte), expr)
    return NONE

# ---- The grammar ----

CLASS_1 = b"ABCDEFGHIJKLMNOPQRSTUVWXYZabcdefghijklmnopqrstuvwxyz_"
CLASS_2 = b"0123456789-."

NAME = cat(one_of(CLASS_1), ("star", one_of(CLASS_1 + CLASS_2)))
TEST = alt(NAME, word(b"*"), word(b"text()"), word(b"node()"))
STEP = alt(word(b"."), word(b".."), cat(alt(EMPTY, cat(NAME, word(b"::"))), TEST))
PART = cat(alt(word(b"/"), word(b"//")), STEP)
PATH = alt(word(b"/"), cat(PART, ("star", PART)))

# ---- The rules beyond the grammar ----

AXES = (b"child parent descendant ancestor descendant-or-self ancestor-or-self "
        b"following preceding following-sibling preceding-sibling self").split()
N32 = b"n" + b"0" * 31
NAMES = [b"batch", b"invoice", b"total", b"text", b"node", b"self", b"a",
         b"b.c-d", b"_x9", N32]
SHORT = {b".": b"self::node()", b"..": b"parent::node()"}
HIDDEN = b"descendant-or-self::node()"
MOST_BYTES, MOST_STEPS, MOST_NAME = 1024, 15, 32

def beginning(text):
    """The length of the longest beginning some path has; is it all a path?"""
    rest = PATH
    for place, byte in enumerate(text):
        rest = derive(rest, byte)
        if rest == NONE:
            return place, False
    return len(text), has_empty(rest)

def read(text):
    """The long form, or the number and place of the refusal."""
    if len(text) > MOST_BYTES:
        return 11, MOST_BYTES
    length, is_path = beginning(text)
    if not is_path:
        return 12, length
    chain, faults = [], []
    # In a path, "/" stands in separators only and "::" only after an axis.
    for part in re.finditer(rb"(//?)([^/]+)", text):
        separator, step = part.groups()
        if separator == b"//":
            chain.append(HIDDEN)
        if step in SHORT:
            chain.append(SHORT[step])
        else:
            axis, colons, test = step.rpartition(b"::")
            chain.append((axis or b"child") + b"::" + test)
            if colons and axis not in AXES:
                faults.append((part.start(2), 13))
            if test not in (b"*", b"text()", b"node()"):
                if len(test) > MOST_NAME:
                    faults.append((part.end() - len(test), 14))
                if test not in NAMES:
                    faults.append((part.end() - len(test), 15))
        if len(chain) > MOST_STEPS:
            faults.append((part.start(), 16))
    if faults:
        place, number = min(faults)
        return number, place
    return b"".join(b"/" + step for step in chain) or b"/"

def check_examples():
    for text, result in [
            (b"", (12, 0)), (b"/a/", (12, 3)), (b"/a::b::c", (12, 5)),
            (b"/child::.", (12, 8)), (b"/foo(", (12, 4)),
            (b"/up::a", (13, 1)), (b"/" + b"u" * 33 + b"::a", (13, 1)),
            (b"/" + b"u" * 33, (14, 1)), (b"/foo", (15, 1)),
            (b"/." * 16, (16, 30)), (b"/." * 15, b"/self::node()" * 15),
            (b"/" * 1025, (11, 1024)), (b"/", b"/"), (b"/..", b"/parent::node()"),
            (b"/text", b"/child::text"), (b"/text()", b"/child::text()"),
            (b"//a", b"/descendant-or-self::node()/child::a")]:
        assert read(text) == result, (text, read(text), result)

# ---- The cases ----

SEEDS = [b"/a", b"//total", b"/batch/invoice/total", b"/./..//a", b"/text()",
         b"//node()", b"/self::node()", b"/descendant-or-self::a",
         b"/following::*", b"/a//text()/..", b"/b.c-d/_x9", b"/*/parent::text",
         b"/text/node/self", b"//ancestor::*//self"]

def good():
    yield from [b"/", b"/.", b"/..", b"//.", b"//..", b"/*", b"//*", b"/./.", b"/../..",
                b"/batch//invoice/../total/text()", b"//*//.//..//text()//node()",
                b"/batch/following-sibling::*/descendant::total/text()"]
    for axis, test in itertools.product(AXES, [b"*", b"text()", b"node()", b"a"]):
        yield from [b"/" + axis + b"::" + test, b"//" + axis + b"::" + test]
    for name in NAMES:
        yield from [b"/" + name, b"//" + name, b"/self::" + name, b"/./" + name + b"/.."]
    for seed in SEEDS:
        yield read(seed)

def look_alikes():
    for axis in AXES:
        for near in [axis.title(), axis[:-1], axis + b"s", axis + b"-", axis + b"."]:
            yield b"/" + near + b"::a"
        yield from [b"/" + axis, b"/" + axis + b"()", b"/self::" + axis,
                    b"/" + axis + b"::" + axis]
    for name in NAMES:
        for near in [name.upper(), name[:-1], name + b"x", name + b"-", name + b"."]:
            yield b"/" + near
        yield from [b"/" + name + b"::a", b"/" + name + b"()", b"/" + name + b"()::a"]
    for front in [b"/text", b"/node", b"/self::text", b"/texts", b"/nod", b"/Text", b"/text()"]:
        for size in range(3):
            for end in itertools.product(b"():/a", repeat=size):
                yield front + bytes(end)
    yield from [b"/attribute::a", b"/namespace::a", b"/@a", b"/a[1]", b"/a|/a", b"a", b"a/a",
                b"/comment()", b"/text( )", b"/self ::a", b"/self: :a", b" /a", b"/a ",
                b"/*::a", b"/.::a", b"/self::..", b"/self:::a", b"/self::/a", b"/text()text()"]

def short_texts():
    for size in range(4):
        for text in itertools.product(b"/.a:*(", repeat=size):
            yield from [bytes(text), b"/" + bytes(text)]
    for byte in range(256):
        if byte not in (10, 13):
            yield from [b"/" + bytes([byte]), b"/a" + bytes([byte])]

def damaged():
    for seed in SEEDS:
        for place in range(len(seed)):
            front, byte, back = seed[:place], seed[place:place + 1], seed[place + 1:]
            yield from [front, front + back, front + byte + byte + back]
            for other in b"/:.(- \xe9":
                yield front + bytes([other]) + back

def limits():
    for count in range(14, 18):
        for step in [b"/.", b"/..", b"/a", b"/*", b"/text()", b"/child::a", b"/up::a"]:
            yield step * count
    for pairs in range(1, 9):       # 14 to 17 steps, some of them hidden
        for count in range(max(0, 14 - 2 * pairs), 18 - 2 * pairs):
            for single in [b"/.", b"/.."]:
                yield from [b"//." * pairs + single * count, single * count + b"//." * pairs]
    yield (b"/descendant-or-self::" + N32) * 15
    for name in [N32[:-1], N32, N32 + b"0"] + [b"u" * size for size in (31, 32, 33, 64)]:
        yield from [b"/" + name, b"//" + name, b"/child::" + name, b"/" + name + b"::a",
                    b"/a/" + name + b"/a", b"/" + name + b"("]
    yield from [b"/" + b"u" * 256, b"/" + N32 * 9, b"/" + b"u" * 261 + b"::a",
                b"/" + b"a" * 1023, b"/" + b"a" * 1024, b" " * 1024, b" " * 1025,
                b"/." * 512, b"/." * 511 + b"/(", b"/a" * 511 + b"//", b"/a" * 512 + b"/",
                b"/up::a" + b"/." * 509, b"/up::a" + b"/." * 509 + b"/"]

def competing():
    u33 = b"u" * 33
    yield from [b"/up::foo", b"/up::a/foo", b"/foo/up::a", b"/child::foo/up::a", b"/foo/bar",
                b"/up::a/down::a", b"/up::" + u33, b"/foo/" + u33, b"/" + u33 + b"/foo",
                b"/child::" + u33 + b"/up::a", b"/" + u33 + b"/up::a", b"/" + u33 + b"::" + u33,
                b"//foo//up::a", b"//up::foo", b"/up::text()", b"/up::node()/foo", b"/up::*"]
    for fault in [b"/up::a", b"/foo", b"/" + u33, b"/." * 16]:      # 12 goes first
        for end in [b"/", b"(", b":", b"//", b"/.a", b"/a::", b"/a::.", b" ", b"/text("]:
            yield fault + end
    for fault in [b"up::a", b"foo", u33, b"up::foo", b"child::foo"]:
        yield b"/" + fault + b"/." * 15
        for count in (13, 14, 15):
            for separator in (b"/", b"//"):
                text = b"/." * count + separator + fault
                yield from [text, text + b"/."]

def main():
    if len(sys.argv) != 2:
        sys.exit(__doc__)
    check_examples()
    texts = list(dict.fromkeys(itertools.chain(
        good(), look_alikes(), short_texts(), damaged(), limits(), competing())))
    assert len(texts) >= 600 and b"" in texts[:-1]
    assert not any(b"\n" in text or b"\r" in text for text in texts)
    results = [read(text) for text in texts]
    refused = sum(isinstance(result, tuple) for result in results)
    lines = [b"%d %d" % result if isinstance(result, tuple) else result for result in results]
    lines.append(b"%d texts: %d accepted, %d refused."
                 % (len(texts), len(texts) - refused, refused))
    os.makedirs(sys.argv[1], exist_ok=True)
    for name, rows in (("stdin", texts), ("stdout", lines)):
        with open(os.path.join(sys.argv[1], name), "wb") as file:
            file.write(b"".join(row + b"\n" for row in rows))

if __name__ == "__main__":
    main()
