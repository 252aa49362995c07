"""Responses that tools/generated and tools/wrong-rules read: built on purpose, and at random."""
from __future__ import annotations

from . import cuts, kinds, packets, texts, tokens
from .spelling import Case


def chosen() -> list[Case]:
    """The cases that are built on purpose: each fault, token, kind, element and boundary."""
    return [case for module in (packets, tokens, kinds, texts, cuts) for case in module.cases()]
