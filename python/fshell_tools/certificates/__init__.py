"""Certificates in the formats of other checkers."""
