"""What a check says of each function, and the gate of each crate.

A check goes on past a function that is not proved, and names each. A function whose body is wrong has a goal of its own that is not
proved; one that only calls such a function says just that, since proofs rest on the contracts of what is called and not on bodies.
"""

import os
import re

LINE = re.compile(r"(fn|impl|struct|enum|trait|const|static) (\S+): (.*)")
NOTE = re.compile(r"note: src/\S+: it is not proved that .*\(`([^`]+)`\)")
ERROR = re.compile(r"(?:\./)?proofs/(\S+?)/\w+\.antt:\d+:\d+: error: (?:`([^`]*)`)?(.*)")
SEARCHED = re.compile(r"`search` did not prove ((?:`[^`]+`(?:, | and )?)+)")
# what a proof file says that names what an edit took away
OF_NAMES = re.compile(r"has no field|is not in scope|has no `|was not admitted|is no name")
# a call of a function as a value
VALUE = re.compile(r"\w+::(.*)\+Fn(?:Mut|Once)?::call(?:_mut|_once)?")
CALLS = re.compile(r"it calls|it passes|a call of")


# what `rt ci` writes of a crate that it has proved, now or in an earlier run over the same files
PROVED = re.compile(r"(?m)^rt: (\w+) (?:proved$|is kept: )")
ENDED = re.compile(r"(?m)^\d+ passed, \d+ failed$")


def progress(text):
    """The crates that stand proved, by what `rt ci` has written so far, and whether it has ended."""
    return set(PROVED.findall(text)), bool(ENDED.search(text))


class Verdict:
    """What is said of an item: its words, and the goals of its own that are not proved."""

    def __init__(self, words, goals):
        self.words, self.goals = words, goals

    def is_proved(self):
        return self.words.startswith("proved")

    def only_calls(self):
        """Whether nothing is said against it but that it calls what is not proved."""
        return not self.goals and bool(CALLS.search(self.words))


class Error:
    """An error in a proof file: the path of the file's folder, the goal, if one is named, and whether it only misses a name that an edit took away.

    The folder of what calls itself, and of a cycle of calls, begins with a plus sign, which is left out of `folder`.
    """

    def __init__(self, path, goal, text):
        self.path, self.folder = path, "/".join(it.removeprefix("+") for it in path.split("/"))
        self.goal = goal or text
        self.is_of_names = bool(OF_NAMES.search(text))


class Said:
    """What a check printed: the verdict of each function, and of other items those that are not proved, by name; and the errors."""

    def __init__(self, printed):
        self.verdicts, self.errors, notes = {}, [], []
        for line in printed.split("\n"):
            note, error, item = NOTE.match(line), ERROR.match(line), LINE.match(line)
            if note:
                notes.append(note[1])
            elif error and "which was rejected, was not checked" not in line:
                self.errors.append(Error(*error.groups()))
            elif item:
                kind, name, words = item.groups()
                searched = SEARCHED.search(words)
                verdict = Verdict(words, notes + (re.findall(r"`([^`]+)`", searched[1]) if searched else []))
                if kind == "fn" or not verdict.is_proved():
                    self.verdicts[name] = verdict
                notes = []

    def errors_of(self, name, cycle=()):
        """The errors in a function's proof, or in that of its cycle of calls those on its goals."""
        return [it for it in self.errors if it.folder == folder_of(name, cycle) and (not cycle or it.goal.startswith(prefix_of(name, cycle)))]

    def goals_of(self, name, cycle=()):
        """The goals of a function's own that are not proved.

        A cycle of calls, given by its name and its members, has one proof; each of its goals begins with the name of its member.
        """
        goals = [it.goal for it in self.errors_of(name, cycle) if not it.is_of_names]
        if not cycle:
            return self.verdicts[name].goals + goals
        members = [self.verdicts[it] for it in cycle[1] if it in self.verdicts]
        return [goal for it in members for goal in it.goals if goal.startswith(prefix_of(name, cycle))] + goals

    def answers_of(self, name, cycle=()):
        """Where nothing but hand-written answers no longer fits, the folders and the goals of these; else none."""
        goals = self.verdicts[name].goals
        own = [it for it in goals if it.startswith(prefix_of(name, cycle))] if cycle else goals
        return [] if own else [(it.path, it.goal) for it in self.errors_of(name, cycle) if not it.is_of_names]

    def misses_names_only(self, name, cycle=()):
        """Whether all that is said against it is that a proof file names what is gone."""
        errors = self.errors_of(name, cycle)
        return bool(errors) and not self.goals_of(name, cycle)

    def wrong(self, changed, cycles=()):
        """What is not proved by a fault of its own though it is none of the changed functions, some of which are in cycles of calls."""
        members = {member for _, cycle in cycles for member in cycle[1]}
        folders = {folder_of(it) for it in changed} | {folder_of(name, cycle) for name, cycle in cycles}
        names = [name for name, it in self.verdicts.items() if called(name) not in {*changed, *members} and not it.is_proved() and not it.only_calls()]
        return names + [f"{it.folder}: {it.goal[:80]}" for it in self.errors if it.folder not in folders]


def without_answer(text, goal):
    """The text of a proof file without its answer to a goal, if it has one."""
    return re.sub(rf"(?ms)^pub {re.escape(goal)} :.*?(?=^(?:pub|abbrev|unfoldable|use|--) |\Z)", "", text)


def called(name):
    """The function that a function calls which rattle makes of another one, where that is used as a value; of others the function itself."""
    of_value = VALUE.fullmatch(name)
    return of_value[1].replace("++", "::") if of_value else name


def home_of(cycle):
    """Where a cycle of calls stands: the path of the module or type that all of its members are in."""
    above = [it.split("::")[:-1] for it in cycle[1]]
    return os.path.commonprefix(above)


def folder_of(name, cycle=()):
    """The folder of a function's proof, below proofs/, or of that of its cycle of calls."""
    if cycle:
        return "/".join([*home_of(cycle)[1:], cycle[0]])
    return "/".join(name.split("::")[1:])


def prefix_of(name, cycle):
    """What the goals of a member of a cycle of calls begin with."""
    return "::".join(name.split("::")[len(home_of(cycle)) :]) + "-"
