"""The command rt as a module, for what its command line doesn't offer, and the top of the repository."""
import os
import shutil
import sys
from importlib import machinery, util

sys.dont_write_bytecode = True
ROOT = os.path.dirname(os.path.dirname(os.path.abspath(__file__)))
loader = machinery.SourceFileLoader("rt", os.path.realpath(shutil.which("rt") or sys.exit("rt is not on the PATH")))
rt = util.module_from_spec(util.spec_from_loader("rt", loader))
loader.exec_module(rt)
