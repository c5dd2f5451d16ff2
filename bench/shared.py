"""The package `trials/shared`, for the scripts of this folder: by it `from shared.forms import bag` finds a module."""

from pathlib import Path

__path__ = [str(Path(__file__).resolve().parents[1] / "trials" / "shared")]
