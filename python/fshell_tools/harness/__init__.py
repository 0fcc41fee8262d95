"""C files that run inputs on another compiler."""
