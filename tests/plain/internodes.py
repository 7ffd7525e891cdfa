# The calls on one internode, straight from document 01. It is n, fifteen ikeys and sixteen children.
#
# A call answers (number, value): 0 and what is told or left, or the refusal and None.

NODE, POSITION, FULL, ORDER = 3, 4, 5, 9
MOST = 15


# Whether ikeys strictly rise.
def rising(ikeys):
    return all(one < other for one, other in zip(ikeys, ikeys[1:]))


# Whether there are at most fifteen ikeys in use, and they strictly rise.
def good(n, ikeys):
    return n <= MOST and rising(ikeys[:n])


def find_insert_position(n, ikeys, children, target):
    return (0, sum(1 for ikey in ikeys[:n] if ikey < target)) if good(n, ikeys) else (NODE, None)


# 0 less, 1 equal, 2 greater.
def compare_key(n, ikeys, children, target, p):
    if not good(n, ikeys):
        return NODE, None
    if p >= n:
        return POSITION, None
    return 0, 0 if target < ikeys[p] else 2 if target > ikeys[p] else 1


def child_for(n, ikeys, children, target):
    return (0, children[sum(1 for ikey in ikeys[:n] if ikey <= target)]) if good(n, ikeys) else (NODE, None)


# n, ikeys and children with one more of each; places behind those in use stay.
def insert_key_and_child(n, ikeys, children, p, ikey, child):
    if not good(n, ikeys):
        return NODE, None
    if p > n:
        return POSITION, None
    if n == MOST:
        return FULL, None
    more = ikeys[:p] + [ikey] + ikeys[p:n]
    if not rising(more):
        return ORDER, None
    return 0, (n + 1, more + ikeys[n + 1:], children[:p + 1] + [child] + children[p + 1:n + 1] + children[n + 2:])
