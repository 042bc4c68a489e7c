"""Runs traces for real on a system: the kernel of this machine, an emulator, a sandbox, or a machine of its own."""
