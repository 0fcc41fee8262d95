"""Where these objects lie in columns, which calls choose, how long locals live."""
