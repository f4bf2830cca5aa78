"""What tools/use/explain.py stands on: causes and remedies of the lines that the program ends with."""
