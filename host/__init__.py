"""The host of `roksnaep-core`: connections, signature arithmetic, the clock and files. What is pulled the core decides."""
