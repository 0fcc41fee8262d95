"""Trees with copies of functions and models of the library, without jumps and with plain switches."""
