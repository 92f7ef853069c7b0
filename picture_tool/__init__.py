"""Pictures of runs: lanes of messages, grids of what sites have, and a page to walk a run. See scripts/picture.py."""
