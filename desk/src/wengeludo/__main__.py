# SPDX-License-Identifier: LicenseRef-Wengeludo
"""python3 -m wengeludo"""

import sys

from .cli import main

if __name__ == "__main__":
    sys.exit(main())
