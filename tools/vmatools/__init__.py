"""What the tools around diltzekun, and their tests, are made of. docs/API.md says what of it others may import."""

VERSION = "0.1.0"
