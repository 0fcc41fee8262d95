"""Campaigns: all goals of a query decided in parallel, with a folder that keeps each result."""
