"""What the operating tools of castd share."""

VERSION = "0.1.0"
"""The version of castd that the tools belong to."""
