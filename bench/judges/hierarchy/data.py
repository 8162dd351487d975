"""Plain data of BLIF files and networks, shared by all scripts."""
from collections import namedtuple

# control: None, or (edge, signal or None); edge is "re" or "fe"; rows are bytes of 0, 1, -
Table = namedtuple("Table", "inputs output on rows line")
Latch = namedtuple("Latch", "input output control init line")
Instance = namedtuple("Instance", "unit bindings line")
Model = namedtuple("Model", "name inputs outputs tables latches instances line")
NetTable = namedtuple("NetTable", "inputs on rows")
NetLatch = namedtuple("NetLatch", "input init")
Network = namedtuple("Network", "name names inputs outputs latches tables")
# a file is a tuple of models; a refusal is ("At", kind, line, name) or ("TooMany", limit, count)

KIND_WORDS = {1: "ControlByte", 2: "UnknownCard", 3: "BadCard", 4: "RowOutsideTable", 5: "BadRow", 6: "MixedCover", 7: "TooWide",
              8: "NoModel", 9: "LatchKind", 10: "DuplicateModel", 11: "DuplicatePort", 12: "UnknownModel", 13: "BadFormal",
              14: "Recursion", 15: "DrivenTwice", 16: "Undriven", 17: "Cycle", 18: "TwoControls", 19: "ControlUsed", 20: "TooMany"}
LIMITS = {"signals": 200000, "instances": 200000, "letters": 400000, "sinks": 8192}
