"""Tests of the tools themselves. They ask lockreplay, and run real processes in a temporary directory."""
