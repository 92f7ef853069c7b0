"""Tests of the built program and of the tools around it, by subject."""
