"""What writes the stored rows: each expected_NAME.py the input and the expected output of a program of crates/."""
