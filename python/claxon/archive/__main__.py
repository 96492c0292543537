"""`python3 -m claxon.archive`."""
import sys

from .command import main

sys.exit(main())
