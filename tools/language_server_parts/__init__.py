"""What tools/language_server is made of: server.py (messages), outline.py (declarations), asking.py (the program)."""
