"""A picture of a run: one HTML page from a fault script and its report."""
