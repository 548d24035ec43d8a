"""Prepares programs to run: compiles them, and adds settings and input."""
