"""Each statement in the profile, on its line."""
