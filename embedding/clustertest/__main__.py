"""Run as `python3 -m clustertest`, by ../cluster-test."""

import sys
from pathlib import Path

# (for fusetest)
sys.path.insert(0, str(Path(__file__).resolve().parent.parent.parent / "conformance"))

from clustertest.run import main  # noqa: E402

sys.exit(main())
