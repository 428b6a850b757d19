"""Prints where Python looks for packages below a prefix: pythondir.py PREFIX."""

import sys
import sysconfig

prefix = sys.argv[1]
schemes = sysconfig.get_scheme_names()
if prefix == "/usr" and "deb_system" in schemes:
    # Debian's own packages: dist-packages, for every Python 3.
    scheme, base = "deb_system", prefix
elif prefix == "/usr/local" and "posix_local" in schemes:
    # Debian's scheme for /usr/local puts the 'local' behind the base by itself.
    scheme, base = "posix_local", "/usr"
else:
    scheme, base = "posix_prefix", prefix
print(sysconfig.get_path("purelib", scheme, {"base": base}))
