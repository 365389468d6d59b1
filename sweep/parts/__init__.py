"""What the programs of this folder share, beside what they take from checks/reading."""
