"""What tools/c_test is made of: programs of lanes (programs.py), what bodies call (bodies.py), names of C (names.py), and the file
(writing.py)."""
