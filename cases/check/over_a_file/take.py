"""Keeps a configuration beside a file as a start of `scripts/operate/serve` does that takes it: CONFIG FILE."""
import sys

from checks import judge
from kept import config_of, put

verdict = judge(sys.argv[1], sys.argv[2], 20000)
if verdict.status:
    sys.exit(verdict.status)
put(config_of(sys.argv[2]), verdict.text)
