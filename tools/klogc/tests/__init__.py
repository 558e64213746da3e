"""Tests of klogc: python3 -m unittest discover -s tools/klogc/tests -t tools"""
