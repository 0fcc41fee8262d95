"""Writes C as users write it again in the profile of C that FShell reads (docs/ADAPT.md). No part of what is proved."""
