"""Says why a program is refused, or why its loops conflict: `./bpfspec explain` starts it.

    python3 tools/explain [--hex] [--arg N] [--test flow|lrpd] [--states] [--all] [--picture] [--json] [--sarif] < INPUT
"""

import os
import sys

# The package is found by its name; its folder, which a program's first path is, has modules that aren't for others.
sys.path[0] = os.path.dirname(os.path.dirname(os.path.abspath(__file__)))

from explain.main import main  # noqa: E402

if __name__ == "__main__":
    sys.exit(main(sys.argv[1:]))
