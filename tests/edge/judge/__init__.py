"""Tests of judge and find."""
