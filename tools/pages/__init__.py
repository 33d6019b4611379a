"""What the pages and the examples show: commands, files and outputs, run anew and compared."""
