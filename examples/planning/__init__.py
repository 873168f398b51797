"""What examples/plan.py is made of: reading, checking and making tables of values and plans."""
