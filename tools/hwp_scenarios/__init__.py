"""Scripts that say what their reports must show, and the checker of that."""
