"""A torture test of file locks: real processes race, and what they saw is judged as a history."""
