"""The separate calculation: the rules of document 01 by exact integers."""
