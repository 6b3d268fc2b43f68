"""Tests of draw."""
