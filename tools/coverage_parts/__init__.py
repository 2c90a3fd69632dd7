"""What tools/coverage is made of: bins.py, gather.py (what scenarios have), texts.py (the table), page.py (HTML), cobertura.py."""
