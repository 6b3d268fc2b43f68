"""Tests of the built program at its edge. The script tests/run runs them."""
