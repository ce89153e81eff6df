"""The tests of the companions, by unittest's conventions: what they make is what was worked out by hand, or what a second reading of the
manual says. `companions/test` runs all, or some of them. They are: statements and programs as shops have them, rewritten, against lines,
places, bytes and length attributes; drawn constants, overlays and commands by a second reading of the assembler's manual; the fourteen
branches against what GNU as makes of them; bad input, and 400 sources with drawn faults, of which none may end otherwise than by lines and
a status; faults by file and line; runs by keys, and test data of any bytes; comparisons of several sources, of all that is kept, and of
what ORDERS finds, by answers made by hand too; the screens that keys reach, and which keys are proposed; scripts as tests, the lessons'
among them, one of them made to fail; how each companion ends, by a closed or full output, another program, a killed one, a signal, an
older Python, and that a file that is there stays; that none harms a file, by every pair of an option that reads and one that writes, and
that no other module than `cics/files.py` opens one; pages of crafted names, in Chromium too; a companion made as its page says; how a
script with RUN becomes one of `cicsedf`; which lines are bad, of 4,000 cut and changed ones, as `cicslook` finds it; and the archive of a
release, from which the first lesson runs in an empty folder."""
import os
import sys

# modules of the release and of the checks that are tested here
sys.path += [os.path.join(os.path.dirname(os.path.abspath(__file__)), "../..", folder) for folder in (".ci", "")]
