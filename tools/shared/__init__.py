"""What the tools share: readers of traces, drawing, the words of a command line, and the building of the programs and of the library."""
