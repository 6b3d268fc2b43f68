"""Tests of the library, and of what is installed."""
