"""What the test scripts share. Each puts the top of the repository on sys.path, and so runs alone, from any folder."""
