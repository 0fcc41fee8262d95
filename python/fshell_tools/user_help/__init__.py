"""What is printed for people who ask for help: manual pages, completion and hints."""
