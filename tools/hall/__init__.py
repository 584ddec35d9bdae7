"""What the tools for halls share: record files, recordings and printed lines, as text.

Frames, addresses, loads and shares are those of the reference, which stands beside it.
"""

import sys
from pathlib import Path

sys.path.insert(0, str(Path(__file__).resolve().parents[1] / "reference"))
