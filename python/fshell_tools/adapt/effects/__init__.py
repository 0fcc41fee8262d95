"""What expressions and calls read and write."""
