"""The tests: README.md says what is tested where, and how to run one."""
import pathlib
import sys

sys.dont_write_bytecode = True
ROOT = pathlib.Path(__file__).resolve().parent.parent
# What the tests import beside themselves: the package of the tools, and datagram_files
sys.path[:0] = [str(ROOT / "tools"), str(ROOT / "examples")]
