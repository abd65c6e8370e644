"""python3 -m p25 [FILE] prints the lines of `p25 show`."""

import sys

from . import main

sys.exit(main(sys.argv[1:]))
