"""What the gate's scripts read of the repository: the functions of a source file, and the wrong answers of a crate.

An edit of crates/NAME/wrong/MODULE.edits is a line `FUNCTION: words` and below it lines `- old` and `+ new`; the next stands behind an empty line.
The old text stands once in that function of src/MODULE.rt, or, where the head names no function, once in the file; a line `@ FILE` turns to another file.
"""
import os
import re

FUNCTION = re.compile(r'^(\s*)(pub(?:\(crate\))? )?(?:extern "C" )?fn (\w+)')


class Edit:
    """One wrong answer: its replacements as (file, start, end, new), and the function whose code it changes, or None."""

    def __init__(self, crate, module, head, label):
        self.crate, self.module, self.head, self.label = crate, module, head, label
        self.file = f"src/{module}.rt"
        self.parts, self.bad = [], None

    def name(self):
        return f"{self.crate}/{self.module}: {self.head}: {self.label}"

    def read(self, lines):
        """the lines of the edit: `@ FILE`, and runs of `- old` lines with the `+ new` lines below them"""
        old, new = [], []
        for line in lines + ["@ " + self.file]:
            sign, text = line[:1], line[2:]
            if sign in "@-" and new:
                self.replace("\n".join(old), "\n".join(new))
                old, new = [], []
            if sign == "@":
                self.file = text
            elif sign == "-":
                old.append(text)
            elif sign == "+" and old:
                new.append(text)
            else:
                self.bad = f"a line that is not understood: {line}"
        if not self.parts and not self.bad:
            self.bad = "it replaces nothing"
        return self

    def replace(self, old, new):
        text = source(self.crate, self.file)
        if text is None:
            self.bad = f"there is no {self.file}"
            return
        start, end = 0, len(text)
        for f in functions(self.crate, self.file) if self.file.startswith("src/") else []:
            if f.short == self.head and old in text[f.start:f.end]:
                start, end = f.start, f.end
        if text.count(old, start, end) != 1:
            self.bad = f"its old text does not stand once in {self.head} of {self.file}: {old}"
            return
        at = text.index(old, start)
        self.parts.append((self.file, at, at + len(old), new))

    def function(self):
        """the function whose code is all that it changes, or None"""
        owners = {owner(self.crate, part) for part in self.parts}
        return owners.pop() if len(owners) == 1 else None


def edits_of(crate):
    """the wrong answers of a crate: `FUNCTION: words`, then the lines of the edit"""
    found = []
    for name in sorted(os.listdir(f"crates/{crate}/wrong")) if os.path.isdir(f"crates/{crate}/wrong") else []:
        module = name[:-len(".edits")]
        for block in re.split(r"\n\n+", read(f"crates/{crate}/wrong/{name}").strip("\n")):
            head, *lines = block.split("\n")
            function, _, words = head.partition(": ")
            found.append(Edit(crate, module, function, words).read(lines))
    return found


def harmless_of(crate):
    path = f"crates/{crate}/harmless.edits"
    return Edit(crate, "lib", ".", "harmless").read(read(path).strip("\n").split("\n") if os.path.isfile(path) else [])


class Function:
    """a function by its path in the crate: who may call it, where it begins, where its code begins, and where it ends"""

    def __init__(self, path, short, reach, start, code, end):
        self.path, self.short, self.reach, self.start, self.code, self.end = path, short, reach, start, code, end


def read(path):
    with open(path) as f:
        return f.read()


def memo(f):
    known = {}

    def get(*key):
        if key not in known:
            known[key] = f(*key)
        return known[key]

    return get


@memo
def source(crate, file):
    path = f"crates/{crate}/{file}"
    return read(path) if os.path.isfile(path) else None


@memo
def functions(crate, file):
    """the functions of a source file"""
    module = file[len("src/"):-len(".rt")].replace("/", "::")
    prefix = "" if module in ("lib", "main") else module + "::"
    found, at, type_, now = [], 0, "", None
    for line in source(crate, file).split("\n"):
        block = re.match(r"impl (?:(\w+)(?:<(\w+)>)? for )?(\w+)", line)
        if block:  # the functions of `impl TryFrom<u8> for Queues` are those of QueuesTryFromU8, as a check names them
            type_ = block[3] + (block[1] or "") + (block[2] or "").capitalize() + "::"
        elif line == "}" and (now is None or now[0] != ""):
            type_ = ""
        head = FUNCTION.match(line)
        if head and now is None:
            now = [head[1], type_ + head[3], at, None, (head[2] or "").strip()]
        if now and now[3] is None and (line == now[0] + "{" or line.endswith("{")):
            now[3] = at + len(line)
        if now and line == now[0] + "}":
            found.append(Function(prefix + now[1], now[1], now[4], now[2], now[3], at + len(line)))
            now = None
        at += len(line) + 1
    return found


def owner(crate, part):
    """the function in whose code a replacement stands, or None"""
    file, start, end, _ = part
    if file.startswith("src/"):
        for f in functions(crate, file):
            if f.code <= start and end <= f.end:
                return f.path
    return None


def runs_of(edits):
    """edits of code, as many runs as one function has edits; then each of the others alone"""
    turns, runs, alone = {}, [], []
    for e in edits:
        function = e.function()
        if function is None:
            alone.append([e])
            continue
        turn = turns.get(function, 0)
        turns[function] = turn + 1
        if turn == len(runs):
            runs.append([])
        runs[turn].append(e)
    return runs + alone
