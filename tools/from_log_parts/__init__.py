"""What tools/from_log is made of: events.py."""
