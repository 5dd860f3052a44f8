"""Inputs at which a mutant answers otherwise than the function does, by an interpreter
(machine.py). Where there is one, the refusal is of a false fact, whatever the words of the refusal.
Only functions with no `requires` are tried, since an input that breaks one shows nothing, and of
these none that is generic: it reads or writes what its caller gives it. The functions that a mutant
calls are the unchanged ones, as in its proof."""
import copy
import time

from interpret.inputs import Inputs
from interpret.values import Outside, Trap, plain

INPUTS, SECONDS = 1500, 6


def outcome(machine, f, args, body):
    """What a call gives and leaves in what was lent to it."""
    machine.steps = 0
    try:
        return plain([machine.call(f, args, body), args])
    except (Trap, RecursionError):
        return "trap"


def differs(machine, function, text):
    """Whether an input was found at which the changed text answers otherwise; None where none is
    tried."""
    if function.requires or function.generic:
        return None
    changed, inputs = machine.parse(function, text), Inputs(machine.world, function)
    began = time.monotonic()
    for _ in range(INPUTS):
        if time.monotonic() - began > SECONDS:
            break
        inputs.begin()
        try:
            args = inputs.arguments(function)
            expected = outcome(machine, function, copy.deepcopy(args), None)
            if expected != "trap" and outcome(machine, function, args, changed) != expected:
                return True
        except Outside:
            return None
    return False
