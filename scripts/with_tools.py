"""Puts the folder of the package gikvand on the path, for scripts and tests that import something of it."""
import os
import sys

sys.path.insert(1, os.path.join(os.path.dirname(os.path.dirname(os.path.abspath(__file__))), "tools"))
