"""python3 -m homotopy: the command `homotopy`."""
import sys

from .command import main

sys.exit(main())
