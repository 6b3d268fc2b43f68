"""Tests of verify and refute."""
