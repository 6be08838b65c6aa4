"""What happened to a program's locks, from a log of strace: the modules of `lockreplay-trace`."""
