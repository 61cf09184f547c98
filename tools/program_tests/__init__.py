"""Tests of the built program: what no proof says of it, and what is known from elsewhere."""
