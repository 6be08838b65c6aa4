"""Run as `python3 -m fusetest`, by ../fuse-test."""

import sys
from pathlib import Path

sys.path.insert(0, str(Path(__file__).resolve().parent.parent.parent / "conformance"))

from fusetest.run import main  # noqa: E402

sys.exit(main())
