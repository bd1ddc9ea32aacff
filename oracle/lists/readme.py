"""The requests of README.md's worked example: Not(And(Not x0, x1))."""
from .common import calls, request

WORDS = [7, 0, 4, 0, 7, 0, 1, 0, 1, 1]


def requests():
    return (calls(["check_tree", "span", "has_var_dep", "is_constant_subtree", "compute_cost"], WORDS)
            + calls(["check_tree"], WORDS[:-2]) + calls(["check_tree"], WORDS + [0, 0])
            + [request("checked_width_of", [8], [], WORDS), request("is_uniform_width", [8], [], WORDS),
               request("checked_width_of", [8], [8, 0], WORDS), request("validate_widths", [8], [8, 16], WORDS),
               request("value", [8], [], [0x0F, 0x3C], WORDS), request("value", [8], [], [0x0F], WORDS)])
