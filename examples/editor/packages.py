"""The Debian packages that have what is started here, and the Python that sees them."""

from __future__ import annotations

import importlib.util
import os
import shutil
import sys

MODULES = {"aiohttp": "python3-aiohttp"}
OF_TEST = {"selenium": "python3-selenium"}
PROGRAMS = {"etcd": "etcd-server", "chromium": "chromium", "chromedriver": "chromium-driver"}
DEBIAN = "/usr/bin/python3"


def with_debian() -> None:
    """Goes on in Debian's Python, where another one was started that doesn't see its packages."""
    lacks = any(importlib.util.find_spec(name) is None for name in MODULES)
    if lacks and os.path.exists(DEBIAN) and os.path.realpath(sys.executable) != os.path.realpath(DEBIAN) and "VOXDAG_DEBIAN" not in os.environ:
        os.environ["VOXDAG_DEBIAN"] = "1"
        os.execv(DEBIAN, [DEBIAN, *sys.argv])


def missing(of_test: bool = False) -> list[str]:
    """The packages that aren't there."""
    modules = {**MODULES, **(OF_TEST if of_test else {})}
    lacks = [package for name, package in modules.items() if importlib.util.find_spec(name) is None]
    return lacks + [package for name, package in PROGRAMS.items() if of_test and not shutil.which(name)]
