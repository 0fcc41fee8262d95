"""What each name stands for, and the types of declarations and expressions."""
