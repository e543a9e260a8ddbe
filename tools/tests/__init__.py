"""Tests of the tools that need no proved program."""
