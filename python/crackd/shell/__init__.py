"""A shell for `crackd serve`, interactive or as a filter: python3 -m crackd shell."""

from .console import main

__all__ = ["main"]
