# Makes a case smaller as long as it still shows what it showed.
from case_format import KEYS, NUMBER_KEYS, copy, get, put


def smallest(case, shows, most_tries=3000):
    """The smallest case found for which `shows` is still true."""
    tries = 0
    shrinking = True
    while shrinking:
        shrinking = False
        for smaller in simpler(case):
            tries += 1
            if tries > most_tries:
                return case
            if shows(smaller):
                case, shrinking = smaller, True
                break
    return case


def simpler(case):
    """Cases that are a little simpler than this one, the boldest first."""
    for key in KEYS:
        if get(case, key):
            yield with_value(case, key, 0 if key in NUMBER_KEYS else [])
    for labels in "nodes", "operations":
        if any(get(case, labels) + get(case, "part_" + labels)):
            yield with_value(with_zeros(case, labels), "part_" + labels, [0] * len(get(case, "part_" + labels)))
    for key in KEYS:
        if key not in NUMBER_KEYS and any(get(case, key)):
            yield with_zeros(case, key)
    for side in "", "part_":
        for operation in range(len(get(case, side + "operations"))):
            yield without_operation(case, side, operation)
        for node in range(len(get(case, side + "nodes"))):
            yield without_node(case, side, node)
    for key in KEYS:
        value = get(case, key)
        if key in NUMBER_KEYS:
            if value:
                yield with_value(case, key, value - 1)
            continue
        if len(value) > 8:
            yield with_value(case, key, value[:len(value) // 2])
        for place in range(min(len(value), 40)):
            yield with_value(case, key, value[:place] + value[place + 1:])
            if value[place]:
                yield with_value(case, key, value[:place] + [value[place] // 2] + value[place + 1:])


def with_value(case, key, value):
    smaller = copy(case)
    put(smaller, key, value)
    return smaller


def with_zeros(case, key):
    return with_value(case, key, [0] * len(get(case, key)))


def without_operation(case, side, operation):
    """One operation less, with its lists, and the map entries that meet it."""
    smaller = copy(case)
    for kind in "source", "target":
        lengths, values = get(case, f"{side}{kind}_lengths"), get(case, f"{side}{kind}s")
        start = sum(lengths[:operation])
        length = sum(lengths[operation:operation + 1])
        put(smaller, f"{side}{kind}_lengths", lengths[:operation] + lengths[operation + 1:])
        put(smaller, f"{side}{kind}s", values[:start] + values[start + length:])
    put(smaller, side + "operations", without_place(get(case, side + "operations"), operation))
    if side:
        smaller.x = without_place(case.x, operation)
    else:
        smaller.x, smaller.x_target = without_value(case.x, operation), max(0, case.x_target - 1)
    return smaller


def without_node(case, side, node):
    """One node less, with everything that lists it."""
    smaller = copy(case)
    put(smaller, side + "nodes", without_place(get(case, side + "nodes"), node))
    for kind in "source", "target":
        drop_listings(smaller, f"{side}{kind}_lengths", f"{side}{kind}s", node)
    if side:
        smaller.w = without_place(case.w, node)
    else:
        smaller.w, smaller.w_target = without_value(case.w, node), max(0, case.w_target - 1)
        smaller.inputs, smaller.outputs = without_value(case.inputs, node), without_value(case.outputs, node)
    return smaller


def drop_listings(case, lengths_key, values_key, node):
    lengths, rest, kept = [], get(case, values_key), []
    for length in get(case, lengths_key):
        own, rest = without_value(rest[:length], node), rest[length:]
        kept += own
        lengths.append(len(own))
    put(case, lengths_key, lengths)
    put(case, values_key, kept + without_value(rest, node))


def without_place(items, place):
    return items[:place] + items[place + 1:]


def without_value(items, value):
    """The list without this number; the numbers above it move down by one."""
    return [item - (item > value) for item in items if item != value]
