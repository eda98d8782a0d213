"""What hwp and Linux answer to one fault script, side by side (docs/LINUX.md)."""
