"""The rows of the tables in `rows/`: how they are read, and whether the program answers as they say."""
