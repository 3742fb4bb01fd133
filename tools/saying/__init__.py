"""What tools/say adds to the lines of sq: the source with its places, what may stand there, and the values at hand."""
