"""What strace writes: recorded, and made into traces."""
