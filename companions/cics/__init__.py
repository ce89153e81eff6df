"""What the companions share: Python of the standard library alone, nothing of which is proved."""
import os
import sys

if sys.version_info < (3, 11):  # this file and the commands are read by older ones too
    sys.stderr.write("%s: Python %d.%d: it needs Python 3.11 or later\n" % (os.path.basename(sys.argv[0]), sys.version_info[0], sys.version_info[1]))
    sys.exit(3)
