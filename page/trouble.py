"""Why no page can be made, in one line: told as bin/compare tells it.

compare/compare.py is found through this module, which is imported first.
"""

import os
import sys

ROOT = os.path.dirname(os.path.dirname(os.path.abspath(__file__)))
sys.path.insert(0, os.path.join(ROOT, 'compare'))

from compare import Trouble, printable, reason  # noqa: E402,F401
