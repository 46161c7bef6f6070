"""Random sources in which blocks use one another, and say and cancel capabilities before and after these
uses, some of them twice."""

import random

SOURCES, BLOCKS = 400, 8
# items that say a capability of each kind: two values of each
TABLED = {
    "am": ("am", "am"), "cols": ("cols#80", "cols#132"), "lines": ("lines#24", "lines#50"),
    "bel": ("bel=^G", "bel=\\Eg"), "cup": ("cup=\\E[%i%p1%d;%p2%dH", "cup=\\EY"),
    "smacs": ("smacs=^N", "smacs=\\E(0"), "rmacs": ("rmacs=^O", "rmacs=\\E(B"), "acsc": ("acsc=``aa", "acsc=aabb"),
}
USER_DEFINED = {"Tc": ("Tc", "Tc"), "Nx": ("Nx#5", "Nx#7"), "Smulx": ("Smulx=\\E[4m", "Smulx=\\E[4:3m")}


def mentions(chance, name):
    """One or two items that say a capability. A user-defined one is cancelled alone, and a boolean of these is
    not: docs/COMPARED.md says what tic makes of that."""
    if name in USER_DEFINED and name != "Tc" and chance.random() < 0.3:
        return [f"{name}@"]
    cancels = 0.3 if name in TABLED else 0
    values = {**TABLED, **USER_DEFINED}[name]
    return [f"{name}@" if chance.random() < cancels else chance.choice(values) for _ in range(chance.choice((1, 1, 2)))]


def items(chance, owners):
    """The items of a block that may use these blocks."""
    names = chance.sample([*TABLED, *USER_DEFINED], chance.randint(1, 7))
    said = [item for name in names for item in mentions(chance, name)]
    said += [f"use={owner}" for owner in chance.sample(owners, min(len(owners), chance.choice((0, 1, 1, 2, 3))))]
    chance.shuffle(said)
    return said


def source(seed):
    """The blocks of a source, in any order: none leads back to itself by its uses."""
    chance = random.Random(seed)
    names = [f"s{seed}b{at}" for at in range(BLOCKS)]
    blocks = [f"{name}|a terminal,\n\t{', '.join(items(chance, names[:at]))},\n" for at, name in enumerate(names)]
    chance.shuffle(blocks)
    return "".join(blocks)
