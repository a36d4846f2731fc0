#!/usr/bin/env python3
"""Spells the repository's own definitions and lemmas as today's Rattle does: types and facts in camel case, all else in snake case.

Run once at the top of the repository, after the kit's port.py. It goes by whole names: a name from the list below, wherever it stands in
an .antt or .rt file outside strings and comments (names of functions have no dash, so they stay). Lemmas whose dash joins two names
(`length-contents`, `contents-push`) keep it. It says where a new name stands already in a crate, for a reader to look at.
"""
import re
import sys
from pathlib import Path

FACTS = """By-rule First-closing Is-sign No-closing No-longer-sign Reads-first Reads-one Scans-from Supply-formed Unless-memory
Well-formed"""

WORDS = """after-step all-bare all-counted answers-bad answers-text at-start at-two bad-line begins-name behind-all behind-there
blank-all blank-no-digit blank-no-name blank-there by-keyword by-more by-rule bytes-at bytes-in capitals-three capitals-two
channel-of closing-alone closing-is closing-none closing-short closing-within colon-alone comment-front comment-or-rest
comment-part comment-reads comment-within contents-places count-more current-token cut-front digit-no-name end-at end-from
entry-bare escaped-all escaped-byte escaped-more every-visible few-tokens few-within filter-formed filter-stream first-closing
first-empty first-full first-held found-by found-later found-there front-is front-within full-more further-more further-none
has-place has-place-if-any held-end held-ends held-formed held-inputs held-tokens holds-first in-front input-not-end is-blank
is-comment is-end is-in-name is-input is-input-end is-part is-space is-type is-unknown is-visible item-at item-last keyword-in
last-is last-piece last-stands leading-some line-more lines-cut-cons lone-front lone-opening longest-in longest-is longest-most
longest-signs longest-within meant-by moved-ahead moved-end moved-past name-more name-tested names-push never-closes no-blank
no-comment no-memory no-opening none-else none-empty number-and-name on-channel on-channel-0 only-from other-says read-well
reads-escape reads-one refusal-number refused-well rest-is rest-shorter run-within said-by same-is says-not-yet scanned-from
scanned-within scanner-formed scanner-stream scans-within second-held second-token seen-by-a-parser shortest-comment
shortest-opening sign-bare sign-front sign-or-byte sign-within signs-small signs-typed small-in some-ahead some-rules some-text
starts-front starts-within still-to-scan stream-formed take-starts tally-line tally-of text-fits text-goes-on text-printed
token-is token-line token-lines token-of tokens-printed two-pieces type-in type-not-end type-of type-small up-to-all
up-to-more up-to-stops up-to-there visible-formed with-line with-lines with-rules with-text word-in-a-name words-cut
words-if-any words-in-either-case wrong-line"""

TABLE = {name: "".join(part[0].upper() + part[1:] for part in name.split("-")) for name in FACTS.split()}
TABLE.update({name: name.replace("-", "_") for name in WORDS.split()})

# what may stand in a name; a name ends at a blank, a bracket, a comma, a semicolon or a dot
NAME = re.compile(r"[^\s(){}\[\],;.\"]+")


def code_and_comment(line, mark):
    place = line.find(mark)
    return (line, "") if place < 0 else (line[:place], line[place:])


def respelled(text, mark):
    lines = []
    for line in text.split("\n"):
        code, comment = code_and_comment(line, mark)
        pieces = re.split(r'("[^"]*")', code)
        pieces[::2] = [NAME.sub(lambda m: TABLE.get(m.group(0), m.group(0)), piece) for piece in pieces[::2]]
        lines.append("".join(pieces) + comment)
    return "\n".join(lines)


def main():
    files = sorted(p for kind in ("specs/**/*.antt", "proofs/**/*.antt", "src/**/*.rt") for p in Path("crates").glob("*/" + kind))
    texts = {p: p.read_text() for p in files}
    for crate in sorted({p.parts[1] for p in files}):
        names = {n for p in files if p.parts[1] == crate and p.suffix == ".antt" for n in NAME.findall(texts[p])}
        for old, new in TABLE.items():
            if old in names and new in names:
                print(f"{crate}: {old} would fall together with {new}")
    for p, text in texts.items():
        new = respelled(text, "--" if p.suffix == ".antt" else "//")
        if new != text:
            p.write_text(new)
    return 0


if __name__ == "__main__":
    sys.exit(main())
