"""python3 -m nutrameza is the command nutrameza."""

import sys

from .cli import main

sys.exit(main())
