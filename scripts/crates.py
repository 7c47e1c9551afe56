"""The crates of crates.txt, and what stands on what. The other scripts ask for it."""
from pathlib import Path

ROOT = Path(__file__).resolve().parent.parent


def uses():
    """Each crate with the crates of this repository that it uses, lowest first."""
    named = {}
    for line in (ROOT / "crates.txt").read_text().splitlines():
        name, _, below = line.partition("#")[0].partition(":")
        if name.strip():
            named[name.split()[0]] = below.split()
    order = {}

    def place(name):
        if name in named and name not in order:
            below = [it for it in named[name] if it in named]
            for it in below:
                place(it)
            order[name] = below

    for name in named:
        place(name)
    return order


def below(name):
    """The crate and those that it stands on, lowest first."""
    order, wanted = uses(), {name}
    for it in reversed(order):
        if it in wanted:
            wanted.update(order[it])
    return [it for it in order if it in wanted]


def above(name):
    """The crate and those that stand on it, lowest first."""
    touched = {name}
    for it, used in uses().items():
        if touched & set(used):
            touched.add(it)
    return [it for it in uses() if it in touched]
