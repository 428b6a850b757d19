"""The version, the commit and the kit that the library was proved with."""

from __future__ import annotations

import os

try:
    from . import _build  # type: ignore[attr-defined]  # written by `make install`
except ImportError:
    _build = None


def _checkout(name: str, default: str) -> list[str]:
    """The lines of a file of the repository, if this is one."""
    path = os.path.join(os.path.dirname(os.path.realpath(__file__)), "..", "..", name)
    try:
        with open(path, encoding="utf-8") as file:
            return file.read().split("\n")
    except OSError:
        return [default]


def _installed() -> str:
    """The version by which an installer of Python knows the package."""
    from importlib import metadata

    try:
        return metadata.version("pelshaqu")
    except metadata.PackageNotFoundError:
        return "version unknown"


def facts() -> tuple[str, str, str]:
    """The version, the commit and the kit's identity; 'unknown' where one is not known."""
    if _build is not None:
        return _build.VERSION, _build.COMMIT, _build.KIT
    version, commit, kit = (_checkout("target/version", "") + ["", "", ""])[:3]
    return version or _checkout("VERSION", "")[0] or _installed(), commit or "unknown", kit or "kit unknown"


def line(name: str) -> str:
    """The line that --version prints."""
    version, commit, kit = facts()
    return f"{name} {version}, commit {commit}, {kit}" if name == "pelshaqu" else f"{name} (pelshaqu) {version}, commit {commit}, {kit}"
