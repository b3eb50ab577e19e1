"""`python3 -m tests.mutants` tries mutants."""

import sys

from tests.mutants.mutants import main

sys.exit(main())
