"""Reverse execution: a machine that goes to any place of its run, and finds what was done before."""
