"""What tools/lint looks at: pages, counts, the command's surface, and the tables of what a change touches.

Each module has `findings`, which yields a line for each thing that isn't so."""
