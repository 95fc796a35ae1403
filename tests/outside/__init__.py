"""Tests outside the gate."""
