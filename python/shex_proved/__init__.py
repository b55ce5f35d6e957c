"""ShEx 2.1 validation by a library whose functions are proved to meet their contracts."""

from .errors import Place, ProofRejectedError, RefusedError, ShexError, WordsError
from .library import Outcome, call
from .results import Answer, Result, WidePair
from .validating import check, convert, extents, validate

__version__ = "0.1.0"

__all__ = [
    "Answer",
    "Outcome",
    "Place",
    "ProofRejectedError",
    "RefusedError",
    "Result",
    "ShexError",
    "WidePair",
    "WordsError",
    "call",
    "check",
    "convert",
    "extents",
    "validate",
]
