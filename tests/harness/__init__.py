"""How cases are read, run and judged. Nothing here knows what the program does."""
