"""Tests of check, and of how texts are read."""
