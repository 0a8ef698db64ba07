"""The page of a run: what is read, the replay at the desk, the words, the faults, and the drawing."""
