"""Run by tests/picture."""

from pathlib import Path

ROOT = Path(__file__).resolve().parent.parent.parent
