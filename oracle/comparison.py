# What the comparing programs share: running the oracle, comparing another program or model with it,
# showing a difference, the worked examples.
import functools
import json
import multiprocessing
import os
import signal
import subprocess
import sys
import time

from case_format import answer_blocks, read, written
from generator import case_at
from shrink import smallest

FOLDER = os.path.dirname(os.path.abspath(__file__))
ORACLE = os.path.join(FOLDER, "target", "oracle")
BLOCK = 500  # cases for one run of a program
SHRINKING = 1000  # tries to make a case smaller


# ---- Answers ------------------------------------------------------------------------------------

def need_oracle():
    if not os.path.exists(ORACLE):
        raise SystemExit("no oracle yet: run oracle/build")


def program_answers(command, cases):
    """For each case the answer lines of a program that reads cases."""
    run = subprocess.run(command, input="".join(map(written, cases)), capture_output=True, text=True)
    blocks = answer_blocks(run.stdout.splitlines())
    if run.returncode or len(blocks) != len(cases):
        raise RuntimeError(f"{command[0]} ended with {run.returncode}: {run.stderr.strip()}")
    return blocks


def oracle_answers(cases):
    return program_answers([ORACLE], cases)


def model_answers(model, cases):
    """The same of a model. One that stops gives a line that differs from every other."""
    blocks = []
    for case in cases:
        try:
            blocks.append(model(case))
        except Exception as error:
            blocks.append([f"stopped: {error!r}"])
    return blocks


def differing_lines(expected, given):
    """Pairs of answer lines that are not equal."""
    longest = max(len(expected), len(given))
    padded = [(list(lines) + ["nothing"] * longest)[:longest] for lines in (expected, given)]
    return [(left, right) for left, right in zip(*padded) if left != right]


def shown(case, pairs, names):
    """A case and the lines in which two answers to it differ, as text."""
    return written(case) + "\n".join(f"  {name}: {line}" for pair in pairs for name, line in zip(names, pair))


# ---- Comparing with the oracle ------------------------------------------------------------------

def compare_block(answers, name, left_out, seed, block):
    """How many cases of a block were compared, and the smallest case found for the first difference; the others
    are named."""
    def expected_answers(cases):
        return [without(lines, left_out) for lines in oracle_answers(cases)]

    def differs(case):
        return differing_lines(expected_answers([case])[0], answers([case])[0])

    cases = [case_at(seed, index) for index in block]
    found = []
    for case, expected, given in zip(cases, expected_answers(cases), answers(cases)):
        if expected != given and not found:
            small = smallest(case, differs, SHRINKING)
            found.append(shown(small, differs(small), ("oracle", name)))
        elif expected != given:
            found.append(f"case {case.name} differs too")
    return len(cases), found


def without(lines, calls):
    """The answer lines but for those of these calls."""
    return [line for line in lines if line.split()[0] not in calls]


def worker_signals():
    """A worker is ended by its pool alone, not by the keyboard."""
    signal.signal(signal.SIGINT, signal.SIG_IGN)
    signal.signal(signal.SIGTERM, signal.SIG_DFL)


def compare(answers, name, left_out=()):
    """Compares `answers` (cases to answer lines) with the oracle; the command line has COUNT and SEED.
    Lines of calls that are left out are not expected."""
    if len(sys.argv) != 3:
        sys.exit(f"usage: {sys.argv[0]} COUNT SEED")
    need_oracle()
    count, seed = map(int, sys.argv[1:])
    blocks = [range(first, min(first + BLOCK, count)) for first in range(0, count, BLOCK)]
    done = different = 0
    last_shown = time.monotonic()
    for stop in signal.SIGINT, signal.SIGTERM:
        signal.signal(stop, signal.default_int_handler)  # raises KeyboardInterrupt
    with multiprocessing.get_context("fork").Pool(initializer=worker_signals) as pool:
        try:
            for compared, found in pool.imap(functools.partial(compare_block, answers, name, left_out, seed), blocks):
                done += compared
                different += len(found)
                for text in found:
                    print(text, flush=True)
                if time.monotonic() - last_shown > 3:
                    last_shown = time.monotonic()
                    print(f"{done} of {count} cases, {different} differences", file=sys.stderr, flush=True)
        except KeyboardInterrupt:
            print(f"stopped; seed {seed} gives the same cases again", file=sys.stderr)
    print(f"{done} cases, {different} differences")
    sys.exit(0 if done == count and not different else 1)


# ---- Worked examples ----------------------------------------------------------------------------

def worked_cases():
    with open(os.path.join(FOLDER, "worked.cases")) as file:
        return list(read(file))


def worked_texts():
    """For each example: why, the bytes, the answer's bytes."""
    with open(os.path.join(FOLDER, "worked.texts")) as file:
        examples = [json.loads(line) for line in file if not line.startswith("#")]
    return [(e["why"], e["text"].encode("latin-1") * e.get("times", 1), e["answer"].encode()) for e in examples]
