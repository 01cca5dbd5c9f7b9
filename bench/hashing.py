"""How tables hash ids and labels by the rule that everybody knows.

The kit's hasher multiplies what it is at and what comes to 128 bits, and joins the halves by xor. A table has groups
of twelve entries at most. A look-up begins at the group that the lowest bits of a hash tell, and goes on to the next
where that was full. So ids and labels meet where they have one hash, or few groups: each is looked up past the others.
Whoever knows the rule can choose such. A rule that begins at a secret places them as it does any others.
"""

MULTIPLIER = 0x9E37_79B9_7F4A_7C15
START = 0x243F_6A88_85A3_08D3

# The most entries that a group of a table has on average.
GROUP_LOAD = 9


def fed(state, some):
    """What the hasher is at after four to eight bytes. It reads the first four and the last four, the lowest first."""
    product = (state ^ int.from_bytes(some[:4] + some[-4:], "little")) * (MULTIPLIER ^ 2 * len(some))
    return product % 2**64 ^ product >> 64


def hash_of_id(node):
    """The hash of an id, which goes in by eights."""
    return fed(fed(fed(START, node[:8]), node[8:16]), node[16:])


def hash_of_label(label):
    """That of a label of at most seven bytes, which goes in as a number: its bytes as digits behind a one."""
    return fed(START, int.from_bytes(b"\1" + label, "big").to_bytes(8, "little"))


def groups_of(count):
    """How many groups a table of so many entries has: as few as can be, a power of two."""
    groups = 1
    while GROUP_LOAD * groups < count:
        groups *= 2
    return groups


def group_of(hashed, groups):
    """The group that a hash tells."""
    return (hashed ^ hashed >> 32) % groups
