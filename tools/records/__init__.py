"""Captures and results of chanmap as values, lines and bytes; docs/FORMATS.md tells the bytes."""

VERSION = "1.0"
