"""Every limit that the text tools know, in one table each. The planner judges by its own; these say a fault by its line before it runs."""

# The least and the greatest of each number.
RANGES = {
    "deadline": (1, 4095),
    "fastest": (1, 1023),
    "power": (0, 20_000_000),
    "length": (1, 255),
    "saving": (1, 1000),
    "delay": (0, 255),
}
MOST_PARTS = 64
MOST_LINKS = 256
MOST_RUNS = 4
MOST_GROUPS = 4  # groups of seven bits in one number of a file
LONGEST_LABEL = 16

# The bytes that the program reads of each file. What stands past them it would not see.
READS = {"board.dat": 2_048, "orders.dat": 65_536, "names.txt": 4_096}

# No text is longer than this; what is, is no board.
LONGEST_TEXT = 32 * 1024 * 1024

# Words of the text that not every program knows; one switch each.
RULES_KNOWN = True  # "rule A" and "rule B" on a board
LINK_DELAYS_KNOWN = False  # design files of version 2: "link FROM TO TICKS" on a board, "delay FROM TO TICKS" as an order
