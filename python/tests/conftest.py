"""What the tests share."""

from __future__ import annotations

import sys
from pathlib import Path

PACKAGE = Path(__file__).resolve().parent.parent
ROOT = PACKAGE.parent

sys.path.insert(0, str(PACKAGE))
