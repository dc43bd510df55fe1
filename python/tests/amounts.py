"""How much the tests with random steps do: all of it with CRACKD_TESTS=all in the environment, else a tenth."""

import os

IS_ALL = os.environ.get("CRACKD_TESTS") == "all"


def amount(whole):
    """How many of so many steps a test takes."""
    return whole if IS_ALL else whole // 10
