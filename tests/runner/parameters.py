"""Tests with parameters: a test for each of several values, or of several cases."""
import re
from functools import wraps


class for_values:
    """`@for_values(8, 10)` makes two tests of a method: each is given one of the values, and has it in its name."""

    def __init__(self, *values):
        self.values = values

    def __call__(self, method):
        self.method = method
        return self

    def __set_name__(self, owner, name):
        delattr(owner, name)
        for value in self.values:
            setattr(owner, f"{name}_{value}", of_value(self.method, value))


def of_value(method, value):
    @wraps(method)
    def test(case):
        return method(case, value)

    return test


def for_each(cases):
    """Gives a class a test of each case, which its method `tried` is given. A case begins with the test's name, of which `tried` gets the rest."""

    def with_tests(kind):
        for name, *case in cases:
            test = "test_" + re.sub(r"\W+", "_", name)
            assert not hasattr(kind, test), test
            setattr(kind, test, test_of(case))
        return kind

    return with_tests


def test_of(case):
    return lambda self: self.tried(*case)
