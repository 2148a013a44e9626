"""Puts the folders scripts and tools on the path, for the programs of this folder and for tests, and ends in one line under a
Python that is older than they are written for. Not a program: they import it first."""
import os
import sys

sys.path.insert(1, os.path.join(os.path.dirname(os.path.dirname(os.path.abspath(__file__))), "scripts"))

import needs_python  # (in front of what an older Python can't read)
import with_tools  # (in front of what stands in the package gikvand)
