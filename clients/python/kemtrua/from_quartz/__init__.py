"""Reads what Quartz has, in its XML files and in its tables, and writes a document of it, and a report of what has no counterpart."""
