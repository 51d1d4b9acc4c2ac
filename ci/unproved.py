"""Runs a crate's program or its tests without a proof: 'rt try' in the folder where it is run, with the same words.

Beside each run 'rt try' begins a check of the same crate, which only looks for names that a proof would refuse. It takes as much processor
time as compiling, and 'rt ci' refuses such names too. So it is left out here.
"""

import shutil
import sys

sys.dont_write_bytecode = True

from rt_module import load_rt  # noqa: E402

rt = load_rt()
rt.rtlib.RATTLE = shutil.which("true")
sys.exit(rt.main(["try", *sys.argv[1:]]))
