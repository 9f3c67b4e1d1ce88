"""The tests in Python: each folder is a part of the gate, and `shared` has what the parts share."""
