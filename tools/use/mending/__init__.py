"""Kernels made of C as people write it: the parts of tools/use/mend.py. pycparser reads the C (`apt-get install python3-pycparser`)."""
