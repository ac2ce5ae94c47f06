"""Wrong bodies: edits of a crate's code, each of which the prover has to refuse, and the batches in which they are tried.

An edit is a file crates/NAME/wrong-bodies/WORDS.edit (tried by the gate) or crates/NAME/wrong-bodies/more/WORDS.edit:

    fn: NAME::module::function     a function whose body it changes, or that a constant which it changes is named by, as the prover writes it
    file: src/module.rt
    old: TEXT                      one line, which stands once in that file, or once in the body of such a function
    new: TEXT

with further lines `fn:`, `file:`, `old:` and `new:` as need be; a pair applies to what the earlier ones made.
"""

import difflib
import os
import re

SIGNATURE = re.compile(r"( *)(?:pub(?:\([^)]*\))? )?(?:const )?fn (\w+)")
CYCLE = re.compile(r" *#\[cycle\((\w+)\)\]")
# the type whose items an impl or a trait has
OWNER = re.compile(r"(?:pub )?(?:impl|trait)\b(?:.* for)? ?(?:<[^{]*> )?(\w+)")
CONSTANT = re.compile(r" *(?:pub(?:\([^)]*\))? )?const (\w+):")


class BadEdit(Exception):
    """An edit that cannot be tried, and why."""


class Function:
    """A function of a source file: its name, its path in the file's module, the first and the last line of its body, and the cycle of
    calls that it stands in, if any."""

    def __init__(self, name, owner, first, last, cycle):
        self.name, self.first, self.last, self.cycle = name, first, last, cycle
        self.path = f"{owner}::{name}" if owner else name


def functions_of(text):
    """The functions of a source file that have a body, by the layout that `rt fmt` gives."""
    lines, found = text.split("\n"), []
    for at, line in enumerate(lines):
        signature = SIGNATURE.match(line)
        opens = opening(lines, at, signature[1]) if signature else None
        if opens is not None:
            is_empty = lines[opens].endswith("{}")
            closes = opens if is_empty else next(row for row in range(opens, len(lines)) if lines[row] == signature[1] + "}")
            found.append(Function(signature[2], owner_above(lines, at) if signature[1] else None, opens, closes, cycle_above(lines, at)))
    return found


def owner_above(lines, at):
    """The type whose impl or trait a line stands in."""
    block = next((lines[row] for row in range(at, -1, -1) if lines[row][:1] not in ("", " ", "}", ")")), "")
    return OWNER.match(block)[1] if OWNER.match(block) else None


def opening(lines, at, indent):
    """The line in which the body opens of the function whose signature begins at a line."""
    for row in range(at, len(lines)):
        line = lines[row]
        if not line.strip():
            return None
        if row > at and line.startswith(indent + " "):
            continue
        if line.endswith("{") or line.endswith("{}"):
            return row
        if row > at and not line.startswith((indent + ")", indent + "where")):
            return None
    return None


def cycle_above(lines, at):
    while at > 0 and re.match(r" *(#\[|//)", lines[at - 1]):
        at -= 1
        if CYCLE.match(lines[at]):
            return CYCLE.match(lines[at])[1]
    return None


class Hunk:
    """Lines of a source file, from the first up to before the last, and what stands in their place."""

    def __init__(self, path, first, last, text):
        self.path, self.first, self.last, self.text = path, first, last, text

    def overlaps(self, other):
        return self.path == other.path and self.first < max(other.last, other.first + 1) and other.first < max(self.last, self.first + 1)


class Edit:
    """A wrong body.

    `functions` are the functions that it changes, `hunks` its lines, `cycles` for a function in a cycle of calls the cycle's name and
    members. `keys` are what no other edit of its batch may have; an edit with none of them is tried alone.
    """

    def __init__(self, crate, file):
        self.file = file
        self.name = f"{crate.name}/{os.path.basename(file)[: -len('.edit')]}"
        with open(file, encoding="utf-8") as it:
            text = it.read()
        self.functions = [line[len("fn: ") :].strip() for line in text.split("\n") if line.startswith("fn: ")]
        if not self.functions:
            raise BadEdit("it has no line 'fn:'")
        self.read_hunks(crate, text)

    def read_hunks(self, crate, text):
        self.hunks, self.keys, self.cycles = [], set(self.functions), {}
        for path, (old, new) in changed_texts(crate.folder, text, self.functions).items():
            found = functions_of(old)
            for hunk in hunks_of(path, old, new):
                self.hunks.append(hunk)
                self.keys |= self.keys_of(hunk, found, old.split("\n"))
        if any(key.startswith("const ") for key in self.keys):
            # every function that names a constant changes with it
            self.keys = set()

    def keys_of(self, hunk, functions, lines):
        around = [it for it in functions if it.first <= hunk.first and hunk.last <= it.last + 1]
        if not around:
            constants = [CONSTANT.match(line) for line in lines[hunk.first : hunk.last]]
            if not constants or not all(constants):
                raise BadEdit(f"line {hunk.first + 1} of {hunk.path} stands in no function's body and is no constant")
            return {f"const {it[1]}" for it in constants}
        inner = around[-1]
        named = [name for name in self.functions if inner.name in name.split("::")]
        if not named:
            raise BadEdit(f"it changes the body of {inner.name}, which no line 'fn:' names")
        if not inner.cycle:
            return set()
        for name in named:
            module = name.removesuffix(f"::{inner.path}") if name.endswith(f"::{inner.path}") else name.rpartition("::")[0]
            self.cycles[name] = inner.cycle, [f"{module}::{it.path}" for it in functions if it.cycle == inner.cycle]
        return {f"cycle {inner.cycle}"}

    def shares_with(self, other):
        """Whether this edit and another can't stand in one batch."""
        if not self.keys or not other.keys or self.keys & other.keys:
            return True
        return any(hunk.overlaps(it) for hunk in self.hunks for it in other.hunks)


def replaced(path, text, old, new, functions):
    """A file's text with the one place changed that an edit means."""
    if text.count(old) == 1:
        return text.replace(old, new)
    lines, found = text.split("\n"), functions_of(text)
    names = {part for name in functions for part in name.split("::")}
    # a method of an impl of a trait has another path there than the prover writes
    by_path = [it for it in found if any(name.endswith(f"::{it.path}") for name in functions)]
    for meant in (by_path, [it for it in found if it.name in names]):
        rows = [row for it in meant for row in range(it.first, it.last + 1) if lines[row].count(old) == 1]
        if len(rows) == 1:
            lines[rows[0]] = lines[rows[0]].replace(old, new)
            return "\n".join(lines)
    raise BadEdit(f"an 'old:' text stands in {path} {text.count(old)} times, and {len(rows)} times in what it changes")


def changed_texts(folder, text, functions):
    """The text before and after of each file that an edit of these functions changes."""
    path, old, texts = "", None, {}
    for line in text.split("\n"):
        if line.startswith("file: "):
            path = line[len("file: ") :].strip()
            if os.path.normpath(path) != path or not path.startswith("src/") or not os.path.isfile(f"{folder}/{path}"):
                raise BadEdit(f"there is no file {path} below src/")
            if path not in texts:
                with open(f"{folder}/{path}", encoding="utf-8") as it:
                    before = it.read()
                texts[path] = before, before
        elif line.startswith("old: "):
            old = line[len("old: ") :]
        elif line.startswith("new:"):
            if not path or not old:
                raise BadEdit("a line 'new:' has no 'file:' and 'old:' before it")
            before, after = texts[path]
            texts[path] = before, replaced(path, after, old, line[len("new:") :].removeprefix(" "), functions)
            old = None
    if not any(before != after for before, after in texts.values()):
        raise BadEdit("it changes nothing")
    return texts


def hunks_of(path, old, new):
    before, after = old.split("\n"), new.split("\n")
    changes = difflib.SequenceMatcher(None, before, after, autojunk=False).get_opcodes()
    return [Hunk(path, a, b, after[c:d]) for how, a, b, c, d in changes if how != "equal"]


def batches_of(edits):
    """The edits in as few batches as come of taking each into the first that holds no function, cycle of calls or line of it."""
    batches = []
    for edit in sorted(edits, key=lambda it: (-len(it.functions), it.name)):
        for batch in batches:
            if not any(edit.shares_with(it) for it in batch):
                batch.append(edit)
                break
        else:
            batches.append([edit])
    return batches


def with_edits(folder, batch):
    """The texts of the files that a batch changes, and the edit of each changed line by file and number."""
    texts, owners = {}, {}
    for path in {hunk.path for edit in batch for hunk in edit.hunks}:
        with open(f"{folder}/{path}", encoding="utf-8") as it:
            lines = it.read().split("\n")
        made, at = [], 0
        for hunk, edit in sorted(((hunk, edit) for edit in batch for hunk in edit.hunks if hunk.path == path), key=lambda it: it[0].first):
            made += lines[at : hunk.first]
            owners |= {(path, len(made) + row + 1): edit for row in range(len(hunk.text) + 1)}
            made += hunk.text
            at = hunk.last
        texts[path] = "\n".join(made + lines[at:])
    return texts, owners
