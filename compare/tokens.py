#!/usr/bin/env python3
"""What `replay` must print for a recording, made from docs/TOKENS.md and docs/RECORDINGS.md by regular expressions,
with nothing of the program's own code.

    compare/tokens.py < RECORDING             print it
    compare/tokens.py BINARY COUNT            compare BINARY with it on COUNT random texts and COUNT random recordings
"""
import random
import re
import subprocess
import sys

SIGNS = [b":=", b";", b"(", b")", b"+", b"-", b"*", b"/", b"**", b"=", b"<>", b"<", b"<=", b">", b">=", b"&", b","]
SIGN_TYPES = {sign: 3 + i for i, sign in enumerate(SIGNS)}
WORDS = {b"AND": 20, b"OR": 21, b"XOR": 22, b"NOT": 23, b"MOD": 24}
NAME = re.compile(rb"[A-Za-z_][A-Za-z0-9_]*")
DIGITS = re.compile(rb"[0-9]+")
BLANKS = re.compile(rb"[ \t\n\r]+")
SIGN = re.compile(b"|".join(re.escape(sign) for sign in sorted(SIGNS, key=len, reverse=True)))
COMMENT = re.compile(rb"\(\*.*?\*\)", re.S)
LATER = (
    b"strategy recovering listener room enter alternative match leave recursion extend any unroll state give-up consume "
    b"passes child parent nth leaf text-of print walk"
).split()
ESCAPES = {b"n": b"\n", b"t": b"\t", b"r": b"\r", b"\\": b"\\"}


def scan(text):
    """The tokens of a text: type, channel, offset, length."""
    at = 0
    while at < len(text):
        if m := NAME.match(text, at):
            ttype, channel, end = WORDS.get(m.group().upper(), 1), 0, m.end()
        elif m := DIGITS.match(text, at):
            ttype, channel, end = 2, 0, m.end()
        elif m := BLANKS.match(text, at):
            ttype, channel, end = 25, 1, m.end()
        elif m := COMMENT.match(text, at):
            ttype, channel, end = 26, 1, m.end()
        elif text.startswith(b"(*", at):
            ttype, channel, end = 0, 0, len(text)
        elif m := SIGN.match(text, at):
            ttype, channel, end = SIGN_TYPES[m.group()], 0, m.end()
        else:
            ttype, channel, end = 0, 0, at + 1
        yield ttype, channel, at, end - at
        at = end


def table(text):
    if len(text) > 65536:
        return b"text -> refused 3 (out of range)\n"
    tokens = list(scan(text))
    out = [b"tokens\n"]
    for i, (ttype, channel, offset, length) in enumerate(tokens):
        part = text[offset : offset + length].replace(b"\t", b"\\t").replace(b"\n", b"\\n").replace(b"\r", b"\\r")
        out.append(b"%d %d %d %d %d '%s'\n" % (i, ttype, channel, offset, length, part))
    seen = sum(1 for t in tokens if t[1] == 0)
    unknown = sum(1 for t in tokens if t[0] == 0)
    out.append(b"%d -1 0 %d 0 ''\n" % (len(tokens), len(text)))
    out.append(b"%d tokens, %d on channel 0, %d on channel 1, %d unknown\n" % (len(tokens), seen, len(tokens) - seen, unknown))
    return b"".join(out)


class Wrong(Exception):
    pass


def unescape(line):
    if re.fullmatch(rb"(?:[^\\]|\\[ntr\\])*", line, re.S) is None:
        raise Wrong('a "\\" is not followed by n, t, r or "\\"')
    return re.sub(rb"\\(.)", lambda m: ESCAPES[m.group(1)], line, flags=re.S)


def read_line(line, texts):
    if line.strip(b" \t") == b"" or line.startswith(b"#"):
        return
    word, space, rest = line.partition(b" ")
    if word == b"text":
        texts.append(unescape(rest))
    elif word == b"rules":
        if space and b"" in rest.split(b" "):
            raise Wrong("rule names are separated by one space")
    elif word in LATER:
        raise Wrong('"%s" is not read yet' % word.decode())
    else:
        raise Wrong("its first word is unknown")


def answer(recording):
    lines = recording.split(b"\n")
    if lines[-1] == b"":
        lines.pop()
    texts = []
    for number, line in enumerate(lines, 1):
        try:
            read_line(line, texts)
        except Wrong as why:
            return b"line %d: %s\n" % (number, str(why).encode())
    return table(b"\n".join(texts))


def recording_of(text):
    escaped = text.replace(b"\\", b"\\\\").replace(b"\n", b"\\n").replace(b"\t", b"\\t").replace(b"\r", b"\\r")
    return b"text " + escaped + b"\n"


def random_text(rng, pieces):
    if rng.random() < 0.3:
        return bytes(rng.randrange(256) for _ in range(rng.randrange(40)))
    return b"".join(rng.choice(pieces) for _ in range(rng.randrange(25)))


def compare(binary, count):
    rng = random.Random(61131)
    pieces = SIGNS + [b"(*", b"*)", b"(*)", b":", b" ", b"\t", b"\n", b"\r", b"and", b"AND", b"oR", b"xOr", b"NOT1", b"mod", b"a", b"_", b"Z9", b"0", b"17"]
    pieces += [b"#", b"'", b"\\", b"\x00", b"\xff", b"\x80", b"[", b"@", b"`", b"{"]
    forms = [b"", b"# c", b"text", b"text ", b"text a := 1;", b"text \\n\\t\\r\\\\", b"text \\q", b"text a\\", b"rules", b"rules a b", b"rules a  b", b"rules "]
    forms += [word + b" 0" for word in LATER] + [b"textx", b"Text a", b" text a", b"  \t", b"\r", b"text a\r", b"\x00"]
    limits = [b"a" * 65536, b"a" * 65537, b";" * 65536, b"(**)" * 10000, b"(*" * 10000, bytes(range(256))]
    recordings = [recording_of(text) for text in limits]
    recordings += [recording_of(random_text(rng, pieces)) for _ in range(count)]
    recordings += [b"\n".join(rng.choice(forms) for _ in range(rng.randrange(6))) + rng.choice([b"", b"\n"]) for _ in range(count)]
    different = 0
    for recording in recordings:
        run = subprocess.run([binary], input=recording, capture_output=True)
        if (run.returncode, run.stdout) != (0, answer(recording)):
            different += 1
            print("differs:", recording[:200])
    print("%d recordings, %d different" % (len(recordings), different))


if __name__ == "__main__":
    if len(sys.argv) == 3:
        compare(sys.argv[1], int(sys.argv[2]))
    else:
        sys.stdout.buffer.write(answer(sys.stdin.buffer.read()))
