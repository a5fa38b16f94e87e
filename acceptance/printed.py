"""The lines that `console` prints, and those that it refuses with."""

import re

CONSOLE_LINES = re.compile(
    rb"cwd is: \S+|[*+ ]\S+|\d+ (un)?marked|\d+ paths, \d+ marked|\d+ marked, \d+ bytes|refused 5[5-7]|/\S*"
    rb'|Volume="[A-Za-z0-9_.: -]+"|(VolSessionId|VolSessionTime|VolAddr|FileIndex)=\d+(-\d+)?'
    rb"|F \d+ \d+ \d+ \d+ \S+ (-?\d+,){13}-?\d+ =\S* \d+ [0-9a-f]{32}|X \d+ \d+ \d+ \d+( \d+)?|total \d+ \d+ \d+"
)
REFUSAL_LINES = re.compile(rb"refused \d+( line \d+| \S+ \d+)?")
