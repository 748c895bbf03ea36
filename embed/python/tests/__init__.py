"""Tests of the package mdeh and of its command, from the repository's root:

    python3 -m unittest discover -s embed/python/tests -t embed/python
"""
