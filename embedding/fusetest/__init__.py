"""What `make fuse-test` runs on the mount of lockfs and, side by side, on a tmpfs."""
