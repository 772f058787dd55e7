"""The option --version of the commands."""

from __future__ import annotations

import argparse
import os

from .folder import TOP


class ShowVersion(argparse.Action):
    """Says which version this is and whether the programs that it runs are proved, and ends."""

    def __call__(self, parser: argparse.ArgumentParser, *_: object) -> None:
        os.execv(f"{TOP}/tools/version", ["version", parser.prog])


def add_version(parser: argparse.ArgumentParser) -> None:
    """Adds the option."""
    parser.add_argument(
        "--version",
        action=ShowVersion,
        nargs=0,
        help="shows the version, the commit, and whether the programs are proved",
    )
