"""Tests of the proved program and of the scripts of bin/, from outside."""
