"""Installation under a prefix, and the Debian package."""
