"""The functions of crate `trials` for Python: builds the archive of `trials_c` into a shared object and calls it. Tables, policies and trees as Python values.

A tree is (label, [trees]). A table is the bytes of document 01; a policy those of docs/FORMAT.md.
"""

import ctypes
import os
import shutil
import subprocess
import sys
import tempfile

import build

ROOT = os.path.dirname(os.path.dirname(os.path.abspath(__file__)))
LABEL_BYTES, RECORD_BYTES = 24, 32
WINDOW_AT, FIRST_DAY, LAST_DAY = 26, 1, 366
SUBJECTS_AT, ISA_AT, RULES_AT, RULE_BYTES, STEPS_AT, POLICY_BYTES = 8, 2056, 2312, 520, 8, 68872
RIGHTS = {"position": 1, "read": 2, "insert": 4, "update": 8, "delete": 16}
HIDDEN = 16384


def need(tool, package):
    """The path of a tool; without it nothing can be tested, so that is a failure."""
    path = shutil.which(tool)
    if path is None:
        sys.exit(f"FAILED: {tool} is missing; install Debian's package {package}")
    return path


class Trials:
    """The functions of the archive. Bytes are lent as a pointer and a length."""

    def __init__(self):
        gcc = need("gcc", "gcc")
        build.build(["trials"])
        with tempfile.TemporaryDirectory() as folder:
            shared = os.path.join(folder, "trials.so")
            subprocess.run([gcc, "-shared", "-o", shared, "-Wl,--whole-archive", build.TRIALS, "-Wl,--no-whole-archive"], check=True)
            self.library = ctypes.CDLL(shared)
        for name in ("path", "table", "policy", "rights", "select", "word"):
            getattr(self.library, "trial_" + name).restype = ctypes.c_int64

    @staticmethod
    def lend(data):
        return ctypes.c_char_p(bytes(data)), ctypes.c_size_t(len(data))

    def select(self, policy, user, table, shown, path):
        """The marks of the shown nodes, or the number of the refusal."""
        numbers = (ctypes.c_uint16 * max(len(shown), 1))(*shown)
        marks = ctypes.create_string_buffer(max(len(shown), 1))
        n = self.library.trial_select(
            *self.lend(policy),
            ctypes.c_size_t(user),
            *self.lend(table),
            numbers,
            ctypes.c_size_t(len(shown)),
            *self.lend(path.encode()),
            marks,
            ctypes.c_size_t(len(shown)),
        )
        return n if n < 0 else list(marks.raw[: len(shown)])


def record(first, label):
    """A subject or a step."""
    text = label.encode()
    return bytes([first, len(text)]) + text.ljust(LABEL_BYTES, b"\0") + bytes(6)


def node(level, label, first=FIRST_DAY, last=LAST_DAY):
    """A node that is shown from the first day to the last."""
    return record(level, label)[:WINDOW_AT] + first.to_bytes(2, "little") + last.to_bytes(2, "little") + bytes(2)


def flat(tree, level=0):
    """The nodes of a tree in document order: level and label."""
    label, children = tree
    nodes = [(level, label)]
    for child in children:
        nodes += flat(child, level + 1)
    return nodes


def table_of(nodes, capacity=None):
    """The table of nodes: level and label, or with a first and a last day behind them."""
    data = len(nodes).to_bytes(4, "little") + b"".join(node(*one) for one in nodes)
    return data.ljust(4 + RECORD_BYTES * (capacity or len(nodes)), b"\0")


def steps_of(path):
    """The steps of a path without brackets: first byte (1 for `//`) and label."""
    steps, at = [], 0
    while at < len(path):
        far = path.startswith("//", at)
        at += 2 if far else 1
        end = path.find("/", at)
        end = len(path) if end < 0 else end
        steps.append((int(far), path[at:end]))
        at = end
    return steps


def policy_of(names, isa=(), rules=()):
    """A policy: names in order, pairs (N, R), rules (accept, right, path, N)."""
    data = bytearray(POLICY_BYTES)
    data[0:3] = bytes([len(names), len(isa), len(rules)])
    for k, name in enumerate(names):
        data[SUBJECTS_AT + k * RECORD_BYTES : SUBJECTS_AT + (k + 1) * RECORD_BYTES] = record(0, name)
    for k, (n, r) in enumerate(isa):
        data[ISA_AT + k * 2 : ISA_AT + k * 2 + 2] = bytes([names.index(n), names.index(r)])
    for k, (accept, right, path, n) in enumerate(rules):
        at = RULES_AT + k * RULE_BYTES
        steps = steps_of(path)
        data[at : at + 4] = bytes([int(accept), RIGHTS[right], names.index(n), len(steps)])
        for j, (far, label) in enumerate(steps):
            place = at + STEPS_AT + j * RECORD_BYTES
            data[place : place + RECORD_BYTES] = record(far, label)
    return bytes(data)
