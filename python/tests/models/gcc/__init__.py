"""What is compared with gcc: each script here says at its head how it goes about it."""
