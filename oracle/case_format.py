# Cases and their text, for every Python program here. README.md describes the format.
from dataclasses import dataclass, field, fields, replace


@dataclass
class Drawing:
    nodes: list = field(default_factory=list)
    operations: list = field(default_factory=list)
    source_lengths: list = field(default_factory=list)
    sources: list = field(default_factory=list)
    target_lengths: list = field(default_factory=list)
    targets: list = field(default_factory=list)


@dataclass
class Case:
    name: str = ""
    drawing: Drawing = field(default_factory=Drawing)  # the maps' target
    part: Drawing = field(default_factory=Drawing)     # the maps' source
    w_target: int = 0
    w: list = field(default_factory=list)
    x_target: int = 0
    x: list = field(default_factory=list)
    inputs: list = field(default_factory=list)
    outputs: list = field(default_factory=list)
    values: list = field(default_factory=list)
    workspace_short: int = 0
    output_short: list = field(default_factory=list)
    expect: list = field(default_factory=list)         # answer lines, for the worked examples


DRAWING_KEYS = [f.name for f in fields(Drawing)]
NUMBER_KEYS = ["w_target", "x_target", "workspace_short"]
LIST_KEYS = ["w", "x", "inputs", "outputs", "values", "output_short"]


def holder(case, key):
    """The object and the attribute that a key of the text names."""
    if key.startswith("part_"):
        return case.part, key[len("part_"):]
    return (case.drawing, key) if key in DRAWING_KEYS else (case, key)


KEYS = DRAWING_KEYS + ["part_" + key for key in DRAWING_KEYS] + NUMBER_KEYS + LIST_KEYS


def get(case, key):
    owner, name = holder(case, key)
    return getattr(owner, name)


def put(case, key, value):
    owner, name = holder(case, key)
    setattr(owner, name, value)


def copy(case):
    """A case whose lists can be changed without changing those of the given one."""
    fresh = replace(case, drawing=replace(case.drawing), part=replace(case.part))
    for key in KEYS:
        if key not in NUMBER_KEYS:
            put(fresh, key, list(get(case, key)))
    return fresh


def written(case):
    """The text of a case. Empty lists and zeros are left out."""
    lines = [f"case {case.name}"]
    for key in KEYS:
        value = get(case, key)
        if value:
            lines.append(f"{key} {value}" if key in NUMBER_KEYS else f"{key} {numbers_text(value)}")
    return "\n".join(lines + [f"expect {line}" for line in case.expect]) + "\n"


def numbers_text(numbers):
    if len(numbers) > 8 and numbers.count(numbers[0]) == len(numbers):
        return f"{numbers[0]}*{len(numbers)}"
    return " ".join(map(str, numbers))


def read(lines):
    """The cases of a text, one by one."""
    case = None
    for line in lines:
        key, _, rest = line.strip().partition(" ")
        if key == "case":
            if case:
                yield case
            case = Case(rest.strip())
        elif key == "expect" and case:
            case.expect.append(rest.strip())
        elif key and not key.startswith("#"):
            if not case or key not in KEYS:
                raise ValueError(f"not a line of a case: {line.strip()}")
            numbers = read_numbers(rest)
            put(case, key, numbers[0] if key in NUMBER_KEYS else numbers)
    if case:
        yield case


def read_numbers(text):
    numbers = []
    for word in text.split():
        number, _, times = word.partition("*")
        numbers += [int(number)] * int(times or 1)
    return numbers


def answer_blocks(lines):
    """The answers of a program: for each case, its lines without the `case` line."""
    blocks = []
    for line in lines:
        if line.startswith("case "):
            blocks.append([])
        else:
            blocks[-1].append(line.rstrip("\n"))
    return blocks
