"""What journals have of objects, and how those that differ are put together."""
