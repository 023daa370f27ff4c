"""Tests: `python3 -m unittest` in tools/."""
