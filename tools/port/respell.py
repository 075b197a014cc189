#!/usr/bin/env python3
"""Respells the repository's own names and clauses as today's Rattle writes them, once, at the top, right after port.py.

Definitions and lemmas get snake case: withSettings becomes with_settings, held-length becomes held_length. A lemma that would have its definition's name
gets `_lem`. A clause names what a slice holds by the parameter: (before x) becomes x.old of a &mut and x.now of a &, (after x) becomes x.new. Small plain
types derive Clone and Copy, as every type once was copied. The wrong answers and the pages follow. Names of src/, strings and comments' words stay.

usage: tools/port/respell.py [--list]
"""
import glob
import os
import re
import sys

# the names that port.py itself has turned, as its message lists them; the wrong answers and the pages still have the old ones
PORTED = """add-at, add-kept, add-spec, after-none, after-on, all-alike, all-keep, all-of, all-ones, all-three, and-left, and-right, and-then, as-long,
as-read, as-wide, asked-of, at-in, at-mark, at-most, at-none, at-once, at-out, at-size, bitOf, bodyOf, both-long, by-front, by-index, by-word, byteOf,
bytes-after, bytes-count, bytes-read, bytes-take, bytesOf, calls-same, callsOf, clash-read, classOf, cond-same, copied-next, copy-begin, count-by,
counted-none, cut-of, cut-short, cut-spec, cut-twice, cutAt, digits-more, drop-all, drop-past, each-append, elem-end, elem-next, end-goes, endOf, ended-to,
entry-at, entry-spec, entryOf, finish-spec, fit-of, fit-spec, free-spec, from-place, front-of, get-after, give-spec, givenOf, goes-on, good-of, held-both,
held-more, held-same, holds-same, is-cut, isEmpty, isPlain, joined-to, keep-spec, kept-next, kindOf, last-done, last-none, leaves-of, left-there, len-after,
lent-alike, lent-same, lentBy, lentOf, less-both, line-after, line-gives, line-reads, lineOf, load-spec, lower-spec, main-spec, mapped-spec, markOf, no-bytes,
no-end, no-line, no-read, no-room, no-word, none-before, none-more, none-of, none-read, none-within, none-yet, not-first, not-in, numberOf, one-answer,
one-byte, one-input, one-kept, one-left, one-more, one-set, one-spec, others-same, part-filled, part-left, part-length, partOf, pass-spec, passing-begins,
place-is, placeOf, places-of, placesOf, plain-more, push-spec, put-same, put-spec, quiet-of, range-len, range-none, read-alike, read-as, read-by, read-keeps,
read-of, read-short, read-spec, readOn, ready-for, received-as, rest-of, room-for, run-is, runOf, runs-as, same-alike, same-end, same-head, same-length,
same-line, same-place, same-size, same-text, seen-alike, seen-as, set-silent, set-spec, shown-of, shows-nothing, sizeOf, so-far, some-left, some-of,
start-spec, stateOf, step-keeps, step-spec, stepOf, store-spec, stored-more, stored-of, stores-same, sub-at, sub-recorded, take-more, take-spec, taken-is,
takes-none, testOf, the-rest, to-tick, two-bytes, unitOf, used-v, value-spec, walk-end, whole-of, width-spec, withFlags, within-both, word-next, word-of,
wrap-spec, write-keeps, write-spec, written-next, zero-left, enum-told, none-is, visible-plain"""

SIGNATURE = re.compile(r"^(\s*)((?:abbrev |unfoldable |pub |data |record )*)([A-Za-z][^\s:(){}]*)\s*(?:\([^:]*:|\{|:)")
# names that stand for one in a file or a proof alone
LOCAL = "queueFitted heldIn outputReplaced long-p long-q used-g used-w x-place y-place all-is".split()
TOKEN = re.compile(r"[^\s(){}\[\];,.«»\"`|]+")


def snake(name):
    return re.sub(r"(?<=[a-z0-9])([A-Z])", lambda m: "_" + m[1].lower(), name).replace("-", "_")


def is_old(name):
    return "-" in name or bool(re.match(r"[a-z]\w*[A-Z]", name))


def texts(*patterns):
    return sorted(p for pattern in patterns for p in glob.glob(pattern, recursive=True) if os.path.isfile(p))


def read(path):
    with open(path, encoding="utf-8") as f:
        return f.read()


def lemma_files():
    return [p for p in texts("crates/*/specs/**/*.antt", "crates/*/proofs/**/*.antt") if os.path.basename(p) != "Proof.antt"]


def renamed():
    """old name to new, of the definitions and lemmas, their records' fields and constructors, and their local names"""
    defined, all_names = set(), set()
    for path in lemma_files():
        for line in read(path).split("\n"):
            m = SIGNATURE.match(line)
            if m and not line.lstrip().startswith(("use ", "pub use ", "--")):
                all_names.add(m[3])
                if "/specs/" in path or re.search(r"abbrev|unfoldable|data|record", m[2]):
                    defined.add(m[3])
    to = {name: snake(name) for name in all_names if is_old(name)}
    taken = {to.get(name, name) for name in defined}
    for name in to:
        if name not in defined and to[name] in taken:
            to[name] += "_lem"
    return {**to, **{name: snake(name) for name in LOCAL}}


def in_code(text, to):
    """the text of a definition or a proof with the names turned; a comment's words stay, but for names in the form that no word has"""
    def turn(m):
        return to.get(m[0], m[0])

    def line(text):
        code, dashes, comment = text.partition("--") if not re.match(r"^\s*--", text) else ("", "--", text.partition("--")[2])
        start = re.match(r"^\s*", text)[0] if not code and dashes else ""
        comment = TOKEN.sub(lambda m: m[0] if "-" in m[0] else turn(m), comment)
        return start * (not code and bool(dashes)) + TOKEN.sub(turn, code) + dashes + comment

    return "\n".join(line(it) for it in text.split("\n"))


# a definition that reads both ends of references, and the one below it that takes what they hold; o, n and w stand for .old, .new and .now
READ_BOTH = {
    r"CarriesLent p bytes marks out kind body lent result":
        "Carries p bytes.old marks.old out.old kind body.now lent.old result bytes.new marks.new out.new lent.new",
    r"RecordsLent p bytes marks out index kind body line result":
        "Records p bytes.old marks.old out.old index kind body.now line.old result bytes.new marks.new out.new line.new",
    r"FeedsLent stream bytes marks out kept piece line result":
        "Feeds stream bytes.old marks.old out.old kept.old piece.now line.old result bytes.new marks.new out.new kept.new line.new",
    r"PassesLent stream bytes marks out kept piece result.stream":
        "Passes stream bytes.old marks.old out.old kept.old piece.now result.stream bytes.new marks.new out.new kept.new",
}


def in_source(text, to):
    """a source file: names in its clauses and imports, and what its clauses say of a slice"""
    lines, mutable = [], set()
    for line in text.split("\n"):
        if re.match(r"\s*(pub(\(crate\))? )?fn ", line):
            mutable = set()
        if not re.match(r"\s*(requires|ensures|//)", line):
            mutable |= set(re.findall(r"(\w+): &(?:'\w+ )?mut ", line))
        if re.match(r"\s*(requires|ensures|ghost use) ", line):
            for old, new in READ_BOTH.items():
                line = line.replace(old, new)
            line = re.sub(r"\(before (\w+)\)|\bbefore (\w+)(?! \w)", lambda m: (m[1] or m[2]) + (".old" if (m[1] or m[2]) in mutable else ".now"), line)
            line = re.sub(r"\(after (\w+)\)|\bafter (\w+)(?! \w)", lambda m: (m[1] or m[2]) + ".new", line)
            if line.startswith("ghost use"):
                line = re.sub(r"\b(Carries|Records|Feeds|Passes)Lent\b", r"\1", line)
                if re.match(r"ghost use Rattle\.rules\.specs\.Lent\.", line):
                    continue
            line = TOKEN.sub(lambda m: to.get(m[0], m[0]), line)
        elif "//" in line:
            code, slashes, comment = line.partition("//")
            line = code + slashes + TOKEN.sub(lambda m: m[0] if "-" in m[0] else to.get(m[0], m[0]), comment)
        lines.append(line)
    return "\n".join(lines)


def in_edit(text, to):
    """a wrong answer: the same spelling, a projection tight and a prime an apostrophe"""
    text = re.sub(r"(?<=[\w'₀)]) \.(?=[a-z])", ".", text.replace("′", "'"))
    text = re.sub(r"\((\w+(?:\.\w+)+)\)", r"\1", text)
    return TOKEN.sub(lambda m: to.get(m[0], m[0]), text)


def in_page(text, to):
    return re.sub(r"`[^`\n]+`", lambda m: TOKEN.sub(lambda n: to.get(n[0], n[0]), m[0]), text)


def write(path, old, new):
    if old != new:
        with open(path, "w", encoding="utf-8") as f:
            f.write(new)


def main():
    os.chdir(os.path.dirname(os.path.dirname(os.path.dirname(os.path.abspath(__file__)))))
    to = renamed()
    whole = {**{name: snake(name) for name in re.split(r",\s+", PORTED)}, **to}
    if "--list" in sys.argv:
        for name in sorted(to):
            print(name, to[name])
        return
    for path in texts("crates/*/specs/**/*.antt", "crates/*/proofs/**/*.antt"):
        text = read(path)
        write(path, text, in_code(text, to))
    for path in texts("crates/*/src/**/*.rt"):
        text = read(path)
        new = in_source(text, {k: v for k, v in to.items() if "-" not in k})
        new = new.replace("#[derive(Drop)]", "#[derive(Clone, Copy)]")
        if os.path.basename(path) in ("lib.rt", "main.rt") and "#![tactic(auto)]" not in new:
            head = re.match(r"(?://[^\n]*\n)*\n*", new)[0]
            new = head.rstrip("\n") + "\n\n" * bool(head) + "#![tactic(auto)]\n\n" + new[len(head):].lstrip("\n")
        write(path, text, new)
    for path in texts("crates/*/must-fail/*.edit", "crates/*/wrong/*.edits", "crates/*/harmless.edits"):
        text = read(path)
        write(path, text, in_edit(text, whole))
    for path in texts("README.md", "docs/ARCHITECTURE.md", "docs/PROMISES.md", "docs/DECISIONS.md"):
        text = read(path)
        write(path, text, in_page(text, whole))


main()
