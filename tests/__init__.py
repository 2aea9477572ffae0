"""Tests that run the built programs. `./test` runs them all, `python3 -m unittest tests.test_NAME` one file."""
