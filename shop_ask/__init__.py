"""`shop ask` in as little time as it takes."""
