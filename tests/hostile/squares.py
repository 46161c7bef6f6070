"""Sources whose owners come late: block by block they would take the square of their length.

`tic` takes the blocks of a source in one go, and finds out about each of them once. An edit of a
session rebuilds the blocks that depend on it, so a session that puts these blocks in one by one
takes that square.
"""

from registry import case


def owners_last(count):
    """A chain in which each block uses the one after it."""
    return [b"b%d,use=b%d,\n" % (at, at + 1) for at in range(count - 1)] + [b"b%d,cols#1,\n" % (count - 1)]


def late_owners(users, owners):
    """Blocks that use a name, then blocks that have it, the first of which owns it; the report."""
    blocks = [b"b%d,use=n,\n" % at for at in range(users)] + [b"n,cols#1,\n"] * owners
    return blocks, b"".join(b"%d: W4 DuplicateName n\n" % (users + at + 1) for at in range(1, owners))


@case("chain of 65,535 whose owners come last, compiled")
def owners_last_full(take):
    return take.tic(owners_last(65_535), b"")


@case("20,000 users of a name, and then 20,000 blocks that have it, compiled")
def late_owners_full(take):
    return take.tic(*late_owners(20_000, 20_000))


@case("a block with 170,000 uses of a name, and then 20 blocks that have it, compiled")
def wide_user(take):
    blocks, report = late_owners(1, 20)
    blocks[0] = b"x," + b"use=n," * 170_000 + b"\n"
    return take.tic(blocks, report)
