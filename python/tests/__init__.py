"""Tests of the package, against the built program; `python/test` runs them."""
