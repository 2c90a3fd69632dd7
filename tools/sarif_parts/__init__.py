"""What tools/sarif is made of: results.py."""
