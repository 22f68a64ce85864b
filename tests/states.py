"""The state of a walk: what its eight numbers are, in the order in which they lie in an array."""
import collections

State = collections.namedtuple("State", "sigma t tau n pending rounds ensemble largest", defaults=[0, 0])
