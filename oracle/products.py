"""Reads the functions of a library as the compiler made them, a file mir.json, and walks from the functions of a list along their calls.

usage: products.py [--tried] MIR CRATE START..

Prints a line `function NAME` for each that is reached, and a line `fault ..` for each product, quotient and remainder there with no
constant operand, each call of what is no function by name, and each function that the library does not have. What is written follows
no sources: it is what the compiler goes on with.

With --tried it tries itself: it takes from each product its constant in turn, gives a function another name, and calls one by a pointer.
Each has to be told as a fault. It prints how many were tried, and its status is 1 where one is not told.
"""

import json
import re
import sys

PRODUCTS = re.compile(r"Mul|Div|Rem")


def name_of(operation):
    """The word of an operation: of `"FloatMul"` itself, of `{"Mul": "Unsigned"}` the key, of `{"Map": X}` that of X."""
    while isinstance(operation, dict):
        key, inner = next(iter(operation.items()))
        if PRODUCTS.search(key) or not isinstance(inner, (dict, str)):
            return key
        operation = inner
    return str(operation)


def is_constant(operand):
    return isinstance(operand, dict) and operand.keys() <= {"Int", "Float"} and bool(operand)


class Reading:
    """What is reached from some functions, and the faults that are met."""

    def __init__(self, body, starts):
        self.body, self.reached, self.faults, self.products, self.calls = body, [], [], [], []
        for start in starts:
            self.reach(start)
        # (the list grows while it is read)
        for name in self.reached:
            self.look(name, body.get(name))

    def reach(self, name):
        if name in self.reached:
            return
        self.reached.append(name)
        if name not in self.body:
            self.faults.append(f"the compiler knows no function {name}")

    def look(self, here, part):
        if isinstance(part, list):
            for it in part:
                self.look(here, it)
        if not isinstance(part, dict):
            return
        for key, value in part.items():
            if key == "Fn":
                self.reach(value[0])
            elif key in ("Call", "CallV"):
                callee = value[0]
                if key == "CallV" or not isinstance(callee, dict) or "Fn" not in callee:
                    self.faults.append(f"{here}: a call of what has no name: {json.dumps(callee)}")
                self.calls.append((here, value))
            elif isinstance(value, list) and value and PRODUCTS.search(name_of(value[0])):
                self.products.append((here, value))
                if not any(map(is_constant, value[1:])):
                    self.faults.append(f"{here}: {name_of(value[0])} of {' and '.join(map(json.dumps, value[1:]))}")
            self.look(here, value)


def tried(body, starts):
    """Tries the reading on what breaks a rule, one after another, and returns how many products and calls it met, or what it did not tell."""
    met = Reading(body, starts)
    # What is put in the place of a part of the list `value`, and how the one fault begins that has to be told then.
    wrong = []
    for here, value in met.products:
        local = [{"Copy": {"local": 1, "steps": []}} if is_constant(it) else it for it in value[1:]]
        wrong.append((value, [value[0], *local], f"{here}: {name_of(value[0])} of "))
    for here, value in met.calls:
        wrong.append((value, [{"Fn": ["elsewhere", {}]}, *value[1:]], "the compiler knows no function elsewhere"))
        wrong.append((value, [{"Copy": {"local": 1, "steps": []}}, *value[1:]], f"{here}: a call of what has no name"))
    for value, other, begins in wrong:
        was = value[:]
        value[:] = other
        faults = Reading(body, starts).faults
        value[:] = was
        if len(faults) != 1 or not faults[0].startswith(begins):
            return f"{json.dumps(other)} is not told: {faults}", 1
    if not met.products or not met.calls:
        return "there is no product or no call", 1
    return f"{len(met.products)} products and {len(met.calls)} calls of the compiler's", 0


def main(*words):
    path, crate, *starts = [it for it in words if it != "--tried"]
    starts = [f"{crate}::{it}" for it in starts]
    with open(path, encoding="utf-8") as file:
        body = {name: of["body"] for name, of in json.load(file)}
    if "--tried" in words:
        said, status = tried(body, starts)
        print(said)
        return status
    reading = Reading(body, starts)
    for name in reading.reached:
        print(f"function {name}")
    for fault in reading.faults:
        print(f"fault {fault}")
    return 0


sys.exit(main(*sys.argv[1:]))
