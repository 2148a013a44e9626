"""`python3 -m gikvand`, where the folder of this package is on the path."""
import sys

from gikvand.main import main

sys.exit(main())
