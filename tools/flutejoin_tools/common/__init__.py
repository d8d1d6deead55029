"""What all tools share: options, messages, files written whole, and runs of the program."""
