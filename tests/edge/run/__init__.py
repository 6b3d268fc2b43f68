"""Tests of run and simulate, and of the desk."""
