"""Why a plan is as it is: the forms of a program with their loops, what leaves loops and what overlaps, what edges
carry, and which elements are written and read."""
