"""What bench.py measures: a module for each measure, and what they share."""
