"""What the stored cases of the program replay are made with."""
