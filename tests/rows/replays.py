"""Schedules for the rows of `replay`, and what the chooser of the power cut says."""

# the race of a reader whose block comes back: samples/races/block_comes_back
COMES_BACK = """call 1 write 9 fill:11
step 1 138
call 0 read 9
step 0 1
call 1 write 9 fill:22
step 1 138
call 1 write 9 fill:33
step 1 138
step 0 67
"""
# without the third write the block doesn't come back, and the reader looks at the map once more
MOVED_ON = COMES_BACK.replace("call 1 write 9 fill:33\nstep 1 138\n", "").replace("step 0 67", "step 0 71")
BUSY = "call 1 write 9 fill:11\nstep 1 2\ncall 1 read 9\ncall 5 read 9\nstep 0 1\n"
# of a write of 138 steps the last but three stores the map word
STEPS = 138
LOGGED = STEPS - 3

# texts outside the grammar
WRONG = (("step 0\n", "Line 1 Word"), ("\n", "Line 1 Word"), ("step 0 1\nsteps 0 1\n", "Line 2 Word"), ("step 0 1 \n", "Line 1 Word"),
         ("step 01 1\n", "Line 1 Number"), ("step 0 18446744073709551616\n", "Line 1 Number"), ("call x nope\n", "Line 1 Number"),
         ("call 0 nope 1\n", "Line 1 Word"), ("call 0 write 1 fill:1\n", "Line 1 Value"), ("step 0 1\r\n", "Line 1 Encoding"),
         ("step 0 1\n" * 3 + "call 0 write 1 hex:" + "00" * 16385 + "\n", "TooMany Bytes"), ("call 0 read 1\n" * 65537, "TooMany Calls"),
         ("step 0 1\n" * 1864136, "TooLong 16777216"))


def picks(seed, count):
    """The first answers of the seeded chooser."""
    answers = []
    for _ in range(count):
        seed = (seed * 6364136223846793005 + 1442695040888963407) % (1 << 64)
        answers.append(seed >> 63)
    return answers


def write_until(steps, lane=0):
    """A write of sector 9 that was stopped after so many steps."""
    return f"call {lane} write 9 fill:11\nstep {lane} {steps}\n"
