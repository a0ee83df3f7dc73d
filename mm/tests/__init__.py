"""Tests of `mm`. Those of commands need the built `mmachine`, as `mm` itself does."""
