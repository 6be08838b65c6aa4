"""Carries scripts of lock requests out on a real file system, and judges what it answers by lockreplay."""
