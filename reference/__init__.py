"""The reference: every call by another method, in exact integers, and the cases that are made with it. solver.py says why it is right."""
