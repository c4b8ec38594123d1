"""Tests of the separate calculation and the packing; checks of programs."""
