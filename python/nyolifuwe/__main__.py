"""python3 -m nyolifuwe is the command nyo."""

import sys

from .cli import main

sys.exit(main())
