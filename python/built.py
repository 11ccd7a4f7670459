"""For ./survey and ./explain: the module gaffmedlar, its library made first where something has changed that it is made from.

Both programs are outside what is proved. What they print of readings, sets and counts comes from the proved library.
"""
import importlib
import os
import subprocess

from frames import FILE_BYTES  # noqa: F401
from streams import INSTALLED, ROOT, CouldNotRun, why

# The listing program lists so many readings.
LIMIT = 1000


def library():
    if not INSTALLED and not os.environ.get("GAFFMEDLAR_LIBRARY"):
        try:
            build = subprocess.run([os.path.join(ROOT, "tools", "build")], stdin=subprocess.DEVNULL)
        except OSError as e:
            raise CouldNotRun("tools/build can't be run: %s" % why(e))
        if build.returncode:
            raise CouldNotRun("there is no library to work with: 'tools/build' failed")
    try:
        return importlib.import_module("gaffmedlar")
    except ImportError as e:
        raise CouldNotRun(e)
