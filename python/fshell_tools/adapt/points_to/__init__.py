"""Which objects each pointer may meet."""
