"""Tests of the studies: tools/studies/tests/run"""
