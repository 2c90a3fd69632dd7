"""What tools/tests_of_tools tries, a module for each group of tools."""
