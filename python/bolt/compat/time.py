"""Dates, times and durations under their official names."""
from ..temporal import Date, DateTime, Duration, Time

__all__ = ["Date", "DateTime", "Duration", "Time"]
