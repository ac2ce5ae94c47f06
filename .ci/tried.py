"""The crates whose wrong bodies were all refused when the text that stands here was tried: a line `CRATE: SUM` of the file .ci/tried for each.

A sum is of what such a try reads: the crate, every library below it, the toolchain's identity, the edits, and the scripts that read edits and
what the prover says of them (edits.py, verdicts.py). A check of the same text ends the same way, so the gate tries a crate anew where its sum has no line, and
one in six of the others, which ones depends on the text of the whole repository: a line that no try has earned does not last.
"""

import hashlib
import os

HERE = os.path.dirname(os.path.realpath(__file__))
FILE = f"{HERE}/tried"
SCRIPTS = "edits.py", "verdicts.py"
ONE_IN = 6


def digest(parts):
    return hashlib.sha256(repr(parts).encode()).hexdigest()


def contents(folder, names):
    found = []
    for name in sorted(names):
        with open(f"{folder}/{name}", "rb") as it:
            found.append((name, it.read()))
    return found


def sum_of(crate):
    """The sum of all that a try of a crate's wrong bodies reads."""
    folder = f"{crate.folder}/wrong-bodies"
    edits = [it for it in os.listdir(folder) if os.path.isfile(f"{folder}/{it}")]
    return digest((crate.name, crate.stamp(), contents(folder, edits), contents(HERE, SCRIPTS)))


def lines():
    """What the file says: the sum for each crate's name."""
    if not os.path.isfile(FILE):
        return {}
    with open(FILE, encoding="utf-8") as it:
        rows = [line.rstrip("\n").split(": ") for line in it if not line.startswith("#")]
    return {name: sum for name, sum in rows}


def due(crates):
    """Of some crates those whose wrong bodies have to be tried: those whose sum has no line, and one in six of the others."""
    said, sums = lines(), {it.name: sum_of(it) for it in crates}
    known = {name for name, sum in sums.items() if said.get(name) == sum}
    ranks = {name: digest((name, sorted(sums.items()))) for name in known}
    again = sorted(known, key=ranks.get)[: -(-len(known) // ONE_IN)]
    return [it for it in crates if it.name not in known or it.name in again]


def write(crate, sum):
    """Notes that all wrong bodies of a crate were refused, as it stood when it had that sum. Only whoever tried them may say so, and takes the sum
    before the try begins, so that what changes meanwhile has no line."""
    said = lines() | {crate.name: sum}
    with open(FILE, "w", encoding="utf-8") as it:
        it.write("# Written by .ci/wrong-bodies --write; .ci/tried.py says what it is for.\n")
        it.writelines(f"{name}: {sum}\n" for name, sum in sorted(said.items()))
