"""Tests of the page with the program in it, in a browser without a window."""
