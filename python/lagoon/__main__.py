"""python3 -m lagoon"""

import sys

from .cli import main

sys.exit(main())
