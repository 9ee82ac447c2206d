"""`python -m tugzeck`."""

import sys

from .command import main

sys.exit(main())
