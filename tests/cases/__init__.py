"""All cases, in order."""
from .base import CASES
from . import words_and_files, line_forms, design_rules, intent_rules, reports, hostile  # noqa: F401

__all__ = ["CASES"]
