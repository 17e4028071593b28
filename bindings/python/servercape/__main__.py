"""`python3 -m servercape` is the command."""
import sys

from .command import main

sys.exit(main())
