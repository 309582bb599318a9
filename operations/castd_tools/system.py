"""What the system says."""

from __future__ import annotations


def reason(error: OSError) -> str:
    """Why a call of the system failed."""
    return error.strerror or str(error)
