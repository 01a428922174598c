"""Double patterning in KLayout's menu, by `dpl` and the tools that stand beside it."""

import os
import sys

HOME = os.path.dirname(os.path.dirname(os.path.dirname(os.path.realpath(__file__))))
# at the end, since KLayout has a module of the name of one of the tools
sys.path.append(os.path.join(HOME, "tools"))
