"""Modules for wrong bodies: how they are read, checked and judged, and which verdicts are kept."""
