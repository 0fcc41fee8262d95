"""The scripts of bin/ around the program, on a small tree with a stand-in for the kit."""
