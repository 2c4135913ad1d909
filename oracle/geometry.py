"""The geometry of slopes over intervals, in whole numbers of any size, as docs/DEFINITIONS.md says it: normal matrices,
determinants, adjugates, and the tests of slopes for detection and exclusion. An interval is a pair of its ends, in units of
2^-38; a row is a tuple of its PRN and its four parts."""

from intervals import ONE, add, mul, mul_wide, narrow, sqr_wide, sub

LEAST_DETERMINANT = 1 << 28
LEAST_I128, GREATEST_I128 = -(1 << 127), (1 << 127) - 1


def checked_mul(a, b):
    """The product at scale 76, or None where one of the four corners leaves 128 bits."""
    low, high = mul_wide(a, b)
    return (low, high) if LEAST_I128 <= low and high <= GREATEST_I128 else None


def weighed(prn, direction, weight):
    return (prn, *(mul(weight, part) for part in direction), weight)


def gram(rows):
    h = [[None] * 4 for _ in range(4)]
    for j in range(4):
        for k in range(j, 4):
            total = (0, 0)
            for row in rows:
                g = row[1:]
                total = add(total, sqr_wide(g[j]) if j == k else mul_wide(g[j], g[k]))
            h[j][k] = h[k][j] = narrow(total)
    return h


def minor(h, p, q, j, k):
    return narrow(sub(mul_wide(h[p][j], h[q][k]), mul_wide(h[p][k], h[q][j])))


def determinant(h):
    pairs = [(0, 1), (0, 2), (0, 3), (1, 2), (1, 3), (2, 3)]
    s = [minor(h, 0, 1, j, k) for j, k in pairs]
    c = [minor(h, 2, 3, j, k) for j, k in pairs]
    total = sub(mul_wide(s[0], c[5]), mul_wide(s[1], c[4]))
    total = add(total, mul_wide(s[2], c[3]))
    total = add(total, mul_wide(s[3], c[2]))
    total = sub(total, mul_wide(s[4], c[1]))
    return narrow(add(total, mul_wide(s[5], c[0])))


def minor3(h, rows, columns):
    b, p, q = rows
    m1 = minor(h, p, q, columns[1], columns[2])
    m2 = minor(h, p, q, columns[0], columns[2])
    m3 = minor(h, p, q, columns[0], columns[1])
    total = sub(mul_wide(h[b][columns[0]], m1), mul_wide(h[b][columns[1]], m2))
    return narrow(add(total, mul_wide(h[b][columns[2]], m3)))


def adjugate(h):
    adj = [[None] * 4 for _ in range(4)]
    for j in range(4):
        for k in range(j, 4):
            d = minor3(h, [x for x in range(4) if x != j], [x for x in range(4) if x != k])
            adj[j][k] = adj[k][j] = sub((0, 0), d) if (j + k) % 2 else d
    return adj


def alpha(adj, row, axis):
    g = row[1:]
    total = mul_wide(adj[axis][0], g[0])
    for k in range(1, 4):
        total = add(total, mul_wide(adj[axis][k], g[k]))
    return narrow(total)


def squared(adj, row, vertical):
    if vertical:
        return narrow(sqr_wide(alpha(adj, row, 2)))
    return narrow(add(sqr_wide(alpha(adj, row, 0)), sqr_wide(alpha(adj, row, 1))))


def slope(rows, i, d, adj, kappa, vertical):
    """How one slope compares: 'pass', 'fail', 'straddle' or 'overflow'."""
    less = determinant(gram(rows[:i] + rows[i + 1:]))
    left = checked_mul(kappa, squared(adj, rows[i], vertical))
    right = mul_wide(d, less)
    if left is None:
        return "overflow"
    if left[1] <= right[0]:
        return "pass"
    return "fail" if right[1] < left[0] else "straddle"


def detect(rows, kappa, vertical=False):
    """The test of a list of rows, in rising PRN: a tuple whose first word is Available, Unavailable, Undecided or Overflow."""
    if len(rows) < 5:
        return "Unavailable", "Few"
    h = gram(rows)
    d = determinant(h)
    if d[1] < LEAST_DETERMINANT:
        return "Unavailable", "Singular"
    if d[0] < LEAST_DETERMINANT:
        return "Undecided", "Det"
    adj = adjugate(h)
    outcomes = [slope(rows, i, d, adj, kappa, vertical) for i in range(len(rows))]
    if "overflow" in outcomes:
        return "Overflow", rows[outcomes.index("overflow")][0]
    if "fail" in outcomes:
        return "Unavailable", "Slope"
    if "straddle" in outcomes:
        return "Undecided", "Slope", rows[outcomes.index("straddle")][0]
    return ("Available",)


def exclude(rows, kappa, kappa_less, vertical=False):
    """The test of a list of rows and of each list without one, by rising PRN of the one removed."""
    if len(rows) < 6:
        return "Unavailable", "Few"
    whole = detect(rows, kappa, vertical)
    if whole != ("Available",):
        return whole
    for j, row in enumerate(rows):
        verdict = detect(rows[:j] + rows[j + 1:], kappa_less, vertical)
        if verdict[:2] == ("Undecided", "Det"):
            return "Undecided", "DetWithout", row[0]
        if verdict[:2] == ("Undecided", "Slope"):
            return "Undecided", "SlopeWithout", row[0], verdict[2]
        if verdict != ("Available",):
            return verdict
    return ("Available",)
