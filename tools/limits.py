"""limits: the limits of this project for the second programs, as crates/board_model/src/limits.rt has them; `house limits`
compares the two."""

MOST_BRIDGES = 31
MOST_CHILDREN = 8
MOST_AGENTS = 8
MOST_POSTED = 8
MOST_DELAYED = 8
MOST_DWORDS = 8
MOST_OPS = 1024
MOST_TRIES = 65_536
MOST_OPENINGS = 256
MOST_PLANS = 1024
MOST_WAITING = 32
REQUEST_LINES = 32
ROOM_OF_A_TURN = 512

# What follows.
MOST_PORTS = 1 + MOST_CHILDREN
MOST_IN_FLIGHT = 2 * MOST_POSTED + 2 * MOST_DELAYED
MOST_STANDING = MOST_POSTED + 2 * MOST_DELAYED
MOST_OFFERS = 2 * MOST_DELAYED

# What is said of the first line that is too many, in program_pages.
SENTENCES = {
    f"a board has at most {MOST_BRIDGES:,} bridges",
    f"a bus has at most {MOST_AGENTS:,} agents",
    f"a bus has at most {MOST_CHILDREN:,} bridges",
    "a target has at most 6 base address registers",
    "a target has at most 6 abort ranges",
    f"a target has at most {MOST_OPENINGS:,} opening words",
    f"a board has at most {MOST_PLANS:,} discards",
    f"a board has at most {MOST_PLANS:,} drops",
    f"a board has at most {MOST_TRIES:,} operations, each try of a poll counted",
    f"a master has at most {MOST_OPS:,} operations",
    f"a write has at most {MOST_DWORDS:,} words",
}
