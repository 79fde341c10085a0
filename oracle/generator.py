# The generator of cases. Case number `index` of a seed is always the same case.
import random

from case_format import Case, Drawing, get, put

LIMIT, VALUES_LIMIT, LARGEST = 4096, 16384, 2 ** 32 - 1
EDGE_NUMBERS = [0, 1, 2, 3, 100, 2 ** 16, 2 ** 31 - 1, 2 ** 31, LARGEST - 1, LARGEST]
EDGE_LABELS = [0, 1, 6, 7, 8, 15, 16, 31, 32, 255, 256, 511, 512, LARGEST]


def case_at(seed, index):
    rng = random.Random(f"{seed}/{index}")
    if index % 4 == 0:
        drawing = small_drawing(index // 4 * SMALL_STRIDE + seed)
    else:
        drawing = weighted(rng, DRAWINGS)(rng)
    case = Case(name=f"{seed}/{index}", drawing=drawing)
    label(rng, drawing)
    weighted(rng, MAPS)(rng, case)
    add_boundary(rng, case)
    if rng.random() < 0.2:
        for _ in range(rng.choice([1, 1, 2, 3])):
            weighted(rng, DAMAGES)(rng, case)
        for key in DAMAGED_LISTS:
            put(case, key, [min(item, LARGEST) for item in get(case, key)])
    if rng.random() < 0.01:
        go_to_limit(rng, case)
    if rng.random() < 0.05:
        case.workspace_short = rng.choice([0, 1, 1, 1000])
        case.output_short = [rng.choice([0, 0, 0, 1, 5]) for _ in range(3)]
    return case


def weighted(rng, table):
    return rng.choices([item for item, _ in table], [weight for _, weight in table])[0]


def some(rng, items, most, least=0):
    """A list of items, with repeats."""
    return [rng.choice(items) for _ in range(rng.randint(least, most))] if items else []


def subset(rng, items):
    share = rng.choice([0, 0.3, 0.6, 1])
    return [item for item in items if rng.random() < share]


def shuffled(rng, items):
    items = list(items)
    rng.shuffle(items)
    return items


# ---- Drawings: a node count and, for each operation, its source and target list -----------------

def drawing_of(n, operations):
    return Drawing(
        nodes=[0] * n,
        operations=[0] * len(operations),
        source_lengths=[len(s) for s, _ in operations],
        sources=[v for s, _ in operations for v in s],
        target_lengths=[len(t) for _, t in operations],
        targets=[v for _, t in operations for v in t],
    )


def renumbered(rng, n, operations):
    """The same drawing with its nodes and operations in another order."""
    place = shuffled(rng, range(n))
    moved = [([place[v] for v in s], [place[v] for v in t]) for s, t in operations]
    return drawing_of(n, shuffled(rng, moved))


# Node count, operation count, longest list: every drawing of these shapes is made.
SMALL_SHAPES = [(0, m, 0) for m in range(4)] + [(n, 0, 0) for n in range(1, 4)] + [
    (1, 1, 3), (2, 1, 3), (3, 1, 2), (1, 2, 2), (2, 2, 2), (3, 2, 1), (1, 3, 1), (2, 3, 1), (3, 3, 1)]


def lists_up_to(n, longest):
    found = layer = [[]]
    for _ in range(longest):
        layer = [items + [v] for items in layer for v in range(n)]
        found = found + layer
    return found


SMALL_LISTS = [lists_up_to(n, longest) for n, _, longest in SMALL_SHAPES]
SMALL_COUNTS = [len(lists) ** (2 * m) for (_, m, _), lists in zip(SMALL_SHAPES, SMALL_LISTS)]
SMALL_TOTAL = sum(SMALL_COUNTS)
SMALL_STRIDE = 4099  # prime, so that steps of this width meet every small drawing


def small_drawing(number):
    number %= SMALL_TOTAL
    for (n, m, _), lists, count in zip(SMALL_SHAPES, SMALL_LISTS, SMALL_COUNTS):
        if number < count:
            break
        number -= count
    chosen = []
    for _ in range(2 * m):
        number, digit = divmod(number, len(lists))
        chosen.append(lists[digit])
    return drawing_of(n, list(zip(chosen[::2], chosen[1::2])))


def any_drawing(rng):
    n, longest = rng.randint(0, 6), rng.choice([1, 2, 3])
    nodes = range(n)
    return drawing_of(n, [(some(rng, nodes, longest), some(rng, nodes, longest))
                          for _ in range(rng.randint(0, 6))])


def dag(rng, n=None, m=None, longest=3):
    """Each operation leads from nodes before a cut to nodes behind it."""
    n = rng.randint(1, 10) if n is None else n
    m = rng.randint(0, 8) if m is None else m
    near = rng.choice([2, 4, n])
    operations = []
    for _ in range(m):
        cut = rng.randint(0, n)
        operations.append((some(rng, range(max(0, cut - near), cut), longest),
                           some(rng, range(cut, min(n, cut + near)), longest)))
    return renumbered(rng, n, operations)


def circuit(rng):
    """A drawing whose operations have the counts of the operation table."""
    n = rng.randint(2, 9)
    operations = []
    for cut in sorted(rng.choices(range(n), k=rng.randint(1, 9))):
        inputs = rng.choice([1, 1, 2, 2, 2, 3, 3, 4]) if cut else 0
        outputs = rng.choice([1, 1, 1, 2]) if inputs == 1 else 1
        operations.append((some(rng, range(cut), inputs, inputs),
                           some(rng, range(cut, min(n, cut + 2)), outputs, outputs)))
    return renumbered(rng, n, operations)


def chain(rng, n=None):
    n = rng.randint(1, 14) if n is None else n
    operations = [([v], [v + 1]) for v in range(n - 1)]
    return rng.choice([drawing_of(n, operations), renumbered(rng, n, operations)])


def ring(rng, n=None):
    """A cycle with something before it, behind it and beside it."""
    n = rng.randint(1, 6) if n is None else n
    operations = [([v], [(v + 1) % n]) for v in range(n)]
    beside = rng.randint(0, 3)
    for node in range(n, n + beside):
        other = rng.randrange(node)
        operations.append(rng.choice([([node], [other]), ([other], [node]), ([], [node])]))
    return renumbered(rng, n + beside, operations)


def hub(rng, spokes=None):
    """Many operations meet in one node."""
    n, spokes = rng.randint(1, 5), rng.randint(1, 20) if spokes is None else spokes
    operations = []
    for _ in range(spokes):
        other = some(rng, range(min(1, n - 1), n), 2)
        operations.append(rng.choice([(other, [0]), ([0], other), ([0, 0], other), (other, [0] * 3)]))
    return renumbered(rng, n, operations)


def self_loops(rng):
    n = rng.randint(1, 4)
    operations = [([v], [v]) for v in some(rng, range(n), 2, 1)]
    operations += [(some(rng, range(n), 1), some(rng, range(n), 1)) for _ in range(rng.randint(0, 3))]
    return renumbered(rng, n, operations)


def open_ended(rng):
    """Operations without sources, without targets, or without both."""
    n = rng.randint(0, 5)
    pick = lambda: some(rng, range(n), 3)
    return drawing_of(n, [rng.choice([([], pick()), (pick(), []), ([], [])])
                          for _ in range(rng.randint(0, 6))])


def large(rng):
    """As large as allowed, or nearly."""
    size = LIMIT - rng.choice([0, 0, 1, 100])
    return rng.choice([
        lambda: chain(rng, size),
        lambda: ring(rng, size // 4),
        lambda: dag(rng, size, size, 4),
        lambda: dag(rng, size, size, 4),
        lambda: hub(rng, rng.choice([300, 700, 1000, 3000])),
        lambda: drawing_of(size, []),
        lambda: drawing_of(1, [([], [])] * size),
        lambda: drawing_of(2, [([0] * 1024, [1] * rng.choice([1024, 1025]))]),  # 2^20 entries, and over
    ])()


DRAWINGS = [(any_drawing, 24), (dag, 18), (circuit, 30), (chain, 5), (ring, 8), (hub, 5),
            (self_loops, 5), (open_ended, 5), (large, 0.06)]


# ---- Labels -------------------------------------------------------------------------------------

def fitting_labels(inputs, outputs):
    """Labels of the operation table with these counts."""
    labels = [0] if inputs == 1 and outputs >= 1 else []
    if outputs == 1:
        labels += {0: list(range(256, 512)), 1: list(range(16, 32)), 2: [1, 2, 5] * 2, 3: [6] * 4}.get(inputs, [])
        labels += [3, 4, 7] if inputs else []
    return labels


def label(rng, d):
    most_node = rng.choice([0, 0, 1, LARGEST])
    d.nodes = [rng.randint(0, most_node) if most_node else 0 for _ in d.nodes]
    wrong = rng.choice([0, 0, 0, 0.1, 1])
    all_zero = rng.random() < 0.2
    for e, counts in enumerate(zip(d.source_lengths, d.target_lengths)):
        labels = [0] if all_zero else fitting_labels(*counts)
        d.operations[e] = rng.choice(labels if labels and rng.random() >= wrong else EDGE_LABELS)


# ---- Maps into the drawing ----------------------------------------------------------------------

def lists_of(d):
    """The operations of a valid drawing as pairs of lists."""
    operations, s, t = [], 0, 0
    for inputs, outputs in zip(d.source_lengths, d.target_lengths):
        operations.append((d.sources[s:s + inputs], d.targets[t:t + outputs]))
        s, t = s + inputs, t + outputs
    return operations


def set_natural(rng, case, w, x):
    """Maps w and x, with a part that makes them natural; w must meet all nodes that x needs."""
    d, operations = case.drawing, lists_of(case.drawing)
    places = {}
    for place, node in enumerate(w):
        places.setdefault(node, []).append(place)
    pull = lambda nodes: [rng.choice(places[v]) for v in nodes]
    case.part = drawing_of(len(w), [(pull(operations[e][0]), pull(operations[e][1])) for e in x])
    case.part.nodes = [d.nodes[v] for v in w]
    case.part.operations = [d.operations[e] for e in x]
    case.w, case.w_target = w, len(d.nodes)
    case.x, case.x_target = x, len(d.operations)


def needed_nodes(d, x):
    operations = lists_of(d)
    return {v for e in set(x) for nodes in operations[e] for v in nodes}


def closed_selection(rng, case):
    d = case.drawing
    x = shuffled(rng, subset(rng, range(len(d.operations))))
    w = needed_nodes(d, x) | set(subset(rng, range(len(d.nodes))))
    set_natural(rng, case, shuffled(rng, sorted(w)), x)


def folded_selection(rng, case):
    """Natural; nodes and operations may be met twice."""
    d = case.drawing
    x = some(rng, range(len(d.operations)), 4)
    w = sorted(needed_nodes(d, x)) + some(rng, range(len(d.nodes)), 4)
    set_natural(rng, case, shuffled(rng, w[:LIMIT]), x)


def whole(rng, case):
    set_natural(rng, case, list(range(len(case.drawing.nodes))), list(range(len(case.drawing.operations))))


def nearly_natural(rng, case):
    rng.choice([closed_selection, folded_selection, whole])(rng, case)
    for _ in range(rng.choice([1, 1, 2])):
        rng.choice(NEAR_MISSES)(rng, case)


def change_entry(key):
    def miss(rng, case):
        items = get(case, key)
        if items:
            bound = {"w": case.w_target, "x": case.x_target}.get(key, len(case.part.nodes))
            items[rng.randrange(len(items))] = rng.randrange(max(1, bound))
    return miss


def change_label(key):
    def miss(rng, case):
        items = get(case, key)
        if items:
            items[rng.randrange(len(items))] += rng.choice([1, -1]) if 0 < min(items) else 1
            put(case, key, [min(item, LARGEST) for item in items])
    return miss


def swap(key):
    def miss(rng, case):
        items = get(case, key)
        if len(items) >= 2:
            i = rng.randrange(len(items) - 1)
            items[i], items[i + 1] = items[i + 1], items[i]
    return miss


def move_length(key):
    """One list grows by what the next one loses."""
    def miss(rng, case):
        items = get(case, key)
        givers = [i for i, length in enumerate(items) if length]
        if givers:
            items[rng.choice(givers)] -= 1
            items[rng.randrange(len(items))] += 1
    return miss


def change_count(key):
    def miss(rng, case):
        items = get(case, key)
        if rng.random() < 0.5 and items:
            items.pop()
        else:
            items.append(rng.choice(items or [0]))
    return miss


def change_target(key):
    return lambda rng, case: put(case, key, max(0, get(case, key) + rng.choice([-1, 1])))


NEAR_MISSES = (
    [change_entry(key) for key in ["w", "x", "part_sources", "part_targets"]]
    + [change_label(key) for key in ["part_nodes", "part_operations"]]
    + [swap(key) for key in ["w", "x", "part_sources", "part_targets"]]
    + [move_length(key) for key in ["part_source_lengths", "part_target_lengths"]]
    + [change_count(key) for key in ["w", "x"]]
    + [change_target(key) for key in ["w_target", "x_target"]])


def any_maps(rng, case):
    case.part = any_drawing(rng)
    label(rng, case.part)
    fits = rng.random() < 0.5
    for key, items, source in [("w", case.drawing.nodes, case.part.nodes),
                               ("x", case.drawing.operations, case.part.operations)]:
        target = len(items) if fits else rng.randint(0, 6)
        count = len(source) if fits else rng.randint(0, 6)
        put(case, key + "_target", target)
        put(case, key, some(rng, range(target), count, count))


MAPS = [(closed_selection, 45), (folded_selection, 10), (whole, 3), (nearly_natural, 32), (any_maps, 10)]


# ---- Boundary and input values ------------------------------------------------------------------

def add_boundary(rng, case):
    nodes = range(len(case.drawing.nodes))
    case.inputs, case.outputs = some(rng, nodes, 6), some(rng, nodes, 6)
    count = rng.choice([len(case.inputs)] * 3 + [0, 3, 6])
    case.values = [rng.choice(EDGE_NUMBERS + [rng.randint(0, LARGEST)] * 3) for _ in range(count)]


# ---- Damage -------------------------------------------------------------------------------------

DRAWING_LISTS = ["source_lengths", "sources", "target_lengths", "targets"]
DAMAGED_LISTS = DRAWING_LISTS + ["part_" + key for key in DRAWING_LISTS] + ["w", "x", "inputs", "outputs"]


def bounds_near(case, key):
    """Numbers around what an entry of this list must stay below."""
    owner = case.part if key.startswith("part_") else case.drawing
    bound = {"w": case.w_target, "x": case.x_target}.get(key, len(owner.nodes))
    return [max(0, bound - 1), bound, bound + 1, LARGEST]


def damage_entry(rng, case):
    key = rng.choice(DAMAGED_LISTS)
    items = get(case, key)
    if items:
        items[rng.randrange(len(items))] = rng.choice(bounds_near(case, key))


def damage_count(rng, case):
    change_count(rng.choice(DAMAGED_LISTS))(rng, case)


def damage_length(rng, case):
    items = get(case, rng.choice([key for key in DAMAGED_LISTS if "lengths" in key]))
    if items:
        place = rng.randrange(len(items))
        items[place] = max(0, items[place] + rng.choice([-1, 1]))


def wrap_lengths(rng, case):
    """The sum of the lengths grows by 2^32."""
    items = get(case, rng.choice([key for key in DAMAGED_LISTS if "lengths" in key]))
    if len(items) >= 2:
        items[0] += 2 ** 31
        items[-1] += 2 ** 31


def append_bad_value(rng, case):
    """A value too large, with a length list that counts it."""
    side, which = rng.choice(["", "part_"]), rng.choice(["source", "target"])
    lengths = get(case, f"{side}{which}_lengths")
    if lengths:
        lengths[-1] += 1
        key = f"{side}{which}s"
        get(case, key).append(rng.choice(bounds_near(case, key)))


DAMAGES = [(damage_entry, 4), (damage_count, 3), (damage_length, 2), (wrap_lengths, 1), (append_bad_value, 3)]


# ---- The limits ---------------------------------------------------------------------------------

def grow(rng, case, key, size):
    """Makes one count this large and leaves the rest in order as far as it can."""
    side = "part_" if key.startswith("part_") else ""
    kind = key[len(side):]
    if kind in ("w_target", "x_target"):
        put(case, key, size)
        return
    nodes = len(get(case, side + "nodes"))
    bound = {"w": case.w_target, "x": case.x_target, "values": LARGEST + 1,
             "sources": nodes, "targets": nodes, "inputs": nodes, "outputs": nodes}.get(kind, 1)
    items = get(case, key)
    more = max(0, size - len(items))
    if kind == "operations":
        for lengths in "source_lengths", "target_lengths":
            get(case, side + lengths).extend([0] * more)
    if kind in ("sources", "targets") and bound:
        lengths = get(case, side + kind[:-1] + "_lengths")
        if lengths:
            lengths[-1] = min(LARGEST, lengths[-1] + more)
    items.extend(rng.randrange(bound) for _ in range(more if bound else 0))


LIMITED = {key: LIMIT for key in ["nodes", "operations", "part_nodes", "part_operations", "w", "x", "w_target",
                                  "x_target", "inputs", "outputs", "values", "source_lengths",
                                  "part_target_lengths"]}
LIMITED.update({key: VALUES_LIMIT for key in ["sources", "targets", "part_sources", "part_targets"]})


def go_to_limit(rng, case):
    key = rng.choice(sorted(LIMITED))
    grow(rng, case, key, LIMITED[key] + rng.choice([0, 1]))
