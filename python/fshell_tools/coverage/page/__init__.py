"""Reports as one HTML file: its data, pictures, tabs and templates."""
