"""What tools/farm is made of: lines and their parts (lines.py), tables of sweeps (tables.py), and what runs parts (runners.py)."""
