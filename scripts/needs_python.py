"""Ends in one line under a Python that is older than the scripts are written for. Each of them imports it first."""
import sys

if sys.version_info < (3, 10):
    sys.exit(f"{sys.argv[0]}: this needs Python 3.10 or later, and {sys.executable} is {sys.version.split()[0]}")
