"""The crates and programs of this repository: what they are made of, and how they are built."""
