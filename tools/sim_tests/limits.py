"""Scripts that reach a limit and exceed it by one, and long scripts."""

from sim_tests.play import Play, expect, rows

# ---- Names and requests

# A name of 255 letters, and one of 256 that is too long.
NAMES = """
> ask 1 exclusive -x
NotSupportedError
> ask 1 exclusive %
1#0
m3 1>b gen 1 #0 request exclusive %
> ask 1 shared NAME
1#1
m4 1>b gen 1 #1 request shared NAME
> ask 1 shared NAMEx
NameTooLong
""".lstrip()

# The request of a number.
ASKS = """
> ask 1 shared b
1#{n}
m{m} 1>b gen 1 #{n} request shared b
"""

TOO_MANY = """\
> ask 1 shared b
TooMany
> abort 1 0
1#64
m67 1>b gen 1 #64 abort 0
> ask 1 shared b
1#65
m68 1>b gen 1 #65 request shared b
"""


def refusals():
    """Requests with refused names, and as many as a tab may have."""
    play = rows()["joined-1"]
    play.part(NAMES.replace("NAME", "x" * 255))
    play.each(range(2, 64), 3, ASKS)
    return play.part(TOO_MANY)


# ---- Channels and posts

TWO_CHANNELS = """\
> open 1 https://a.test/
opened 1 https://a.test
> open 2 https://a.test/
opened 2 https://a.test
> channel 1 n
channel 0
> channel 2 n
channel 0
"""

# The post of a number, and its delivery.
POST = """
> post 1 0 x
post {n}
m{m} 1>2 post {n} n x
> deliver m{m}
2*0 heard 1#{n} x
"""

INBOX_IS_FULL = """\
> post 1 0 x
post 256
m257 1>2 post 256 n x
> deliver m257
2*0 full
> deliver m257
dropped old post
> read 2 0
read 1#0 x
> read 1 0
nothing
"""


def full_inbox():
    """More posts to another tab than its inbox takes."""
    play = Play().part(TWO_CHANNELS)
    play.each(range(256), 1, POST)
    return play.part(INBOX_IS_FULL)


TWO_OF_ONE_TAB = """\
> open 1 https://a.test/
opened 1 https://a.test
> channel 1 n
channel 0
> channel 1 n
channel 1
"""

FULL_INBOX = """\
> post 1 0 x
post 256
1*1 full
> read 1 1
read 1#0 x
> post 1 0 x
post 257
1*1 heard 1#257 x
> post 1 0 x
post 258
1*1 full
"""


def own_inbox():
    """More posts to a tab's own channel than it takes. A read makes room for another post."""
    play = Play().part(TWO_OF_ONE_TAB)
    play.each(range(256), 0, "> post 1 0 x\npost {n}\n1*1 heard 1#{n} x")
    return play.part(FULL_INBOX)


OPENED = """\
> open 1 https://a.test/
opened 1 https://a.test
"""

# A name that is too long is refused first. A closed channel makes room for another.
TOO_MANY_CHANNELS = """\
> channel 1 NAME
NameTooLong
> channel 1 n
TooManyChannels
> close 1 0
closed 0
> channel 1 n
channel 64
> close 1 0
closed 0
> channel 1 n
TooManyChannels
"""


def channels():
    """More channels than a tab may have."""
    play = Play().part(OPENED)
    play.each(range(64), 0, "> channel 1 n\nchannel {n}")
    return play.part(TOO_MANY_CHANNELS.replace("NAME", "x" * 256))


# A post of 16,384 bytes, and posts of one byte more, on an open channel and on a closed one.
LONG_POSTS = """\
> post 1 0 DATA
post 0
m1 1>2 post 0 n DATA
> deliver m1
2*0 heard 1#0 DATA
> read 2 0
read 1#0 DATA
> post 1 0 DATAx
DataTooLong
> close 1 0
closed 0
> post 1 0 DATAx
InvalidStateError
"""


def data():
    """Data of 16,384 bytes, whose word is longer, and data of one byte more."""
    return Play().part(TWO_CHANNELS).part(LONG_POSTS.replace("DATA", "%FF" * 16_384))


# ---- Numbers

# Of a request, a probe and a query only the request is taken back. A name that no lock has is refused first.
TOO_MANY_NUMBERS = """\
> ask 1 shared a
1#62
> probe 1 shared a
1#63
> query 1
TooMany
> probe 1 shared a
TooMany
> probe 1 shared -
NotSupportedError
> abort 1 63
nothing
> abort 1 61
nothing
> abort 1 62
1#64
> query 1
1#65
> query 1
TooMany
> open2 2 https://t.test/ https://a.test/
opened 2 https://t.test https://a.test
"""


def numbers():
    """More live numbers than a tab may have: 64, or 1,024 of a tab that reports in parts. No broker is up, so nothing is sent."""
    play = Play().part(OPENED)
    play.each(range(62), 0, "> query 1\n1#{n}")
    play.part(TOO_MANY_NUMBERS)
    play.each(range(1_024), 0, "> query 2\n2#{n}")
    return play.part("> query 2\nTooMany")


# ---- Tabs

# There are 16 partitions of 64 tabs each. A death makes room for a tab in its own partition, under a new number.
TOO_MANY_TABS = """\
> open 1025 https://p0.test/
TooManyLiving
> open 5 https://p0.test/
NumberTaken
> kill 16
killed 16
> open 1025 https://p1.test/
PartitionFull
> open 16 https://p0.test/
NumberTaken
> open 1025 https://p0.test/
opened 1025 https://p0.test
> open 1026 https://q.test/
TooManyLiving
"""


def living_tabs():
    """More living tabs than there may be. Tab T is in partition T mod 16."""
    play = Play()
    for tab in range(1, 1_025):
        url = f"https://p{tab % 16}.test"
        play.part(f"> open {tab} {url}/\nopened {tab} {url}")
    return play.part(TOO_MANY_TABS)


def listed_tabs():
    """More listed tabs than a start may have. No listed tab was opened."""
    listed = [" ".join(map(str, range(1, count + 1))) for count in (1_025, 1_024)]
    play = Play().part(f"> start {listed[0]}\ntoo many\n> start {listed[1]}\nstranger 1\n> start -\nup 1")
    return play.part(f"> start {listed[0]}\nalready up")


# ---- Locks

# A tab is taken over before it has reported.
TAKEN_OVER = """\
> open 1 https://a.test/
opened 1 https://a.test
> start
up 1
m1 b>1 hello 1
> corrupt 1
corrupted 1
"""

# A release makes room for one more request. A command that comes again gets its answer again.
TOO_MANY_LOCKS = """\
> deliver m2
joined 1
> forge 1 010100000001000000400101000162
m3 1>b gen 1 #64 request shared b
> deliver m3
dropped too many
> forge 1 010100000001000000400101010162
m4 1>b gen 1 #64 probe shared b
> deliver m4
dropped too many
> forge 1 010100000001000000400200000000
m5 1>b gen 1 #64 release 0
> deliver m5
m6 b>1 gen 1 #64 taken upto 65
> forge 1 010100000001000000410101000162
m7 1>b gen 1 #65 request shared b
> deliver m7
m8 b>1 gen 1 #65 granted upto 66
> deliver m7
again m8
> forge 1 010100000001000000420101000162
m9 1>b gen 1 #66 request shared b
> deliver m9
dropped too many
"""


def forge(play, first, digits, told):
    """Adds a forged report of 64 held shared locks `b` from a number on, as digits and as they are printed."""
    held = range(first, first + 64)
    script = f"> forge 1 {digits}{''.join(f'{number:08X}01010162' for number in held)}"
    play.part(f"{script}\n{told}{''.join(f' #{number} held shared b' for number in held)}")


def locks():
    """More locks than a tab may have. Its agent asks for no more, so the tab forges its report and its requests."""
    play = Play().part(TAKEN_OVER)
    forge(play, 0, "010200000001000000400040", "m2 1>b report 1 base 64")
    return play.part(TOO_MANY_LOCKS)


TOO_MANY_LOCKS_IN_PARTS = """\
> forge 1 010100000001000004000101000162
m18 1>b gen 1 #1024 request shared b
> deliver m18
dropped too many
> forge 1 0101000000010000040002000003FF
m19 1>b gen 1 #1024 release 1023
> deliver m19
m20 b>1 gen 1 #1024 taken upto 1025
> forge 1 010100000001000004010101000162
m21 1>b gen 1 #1025 request shared b
> deliver m21
m22 b>1 gen 1 #1025 granted upto 1026
> forge 1 010100000001000004020101010162
m23 1>b gen 1 #1026 probe shared b
> deliver m23
dropped too many
"""


def locks_in_parts():
    """More locks than a tab may have that reports in parts."""
    play = Play().part(TAKEN_OVER)
    for part in range(16):
        told = f"m{part + 2} 1>b report2 1 base 1024 part {part} of 16"
        forge(play, 64 * part, f"02020000000100000400{part:04X}00100040", told)
        play.part(f"> deliver m{part + 2}\n" + (f"part {part} of 16" if part < 15 else "joined 1"))
    return play.part(TOO_MANY_LOCKS_IN_PARTS)


# ---- Long scripts


def many_locks():
    """Seven tabs hold 64 locks each, with names of 255 letters. The answer to a query of another tab has over 100,000 bytes."""
    play, name = Play().part("> start -\nup 1"), "x" * 255
    for tab in range(1, 9):
        hello, report = 2 * tab - 1, 2 * tab
        play.part(f"> open {tab} https://a.test/\nopened {tab} https://a.test\nm{hello} k>{tab} hello 1")
        play.part(f"> deliver m{hello}\nentered 1\nm{report} {tab}>b report 1 base 0\n> deliver m{report}\njoined {tab}")
    for place in range(7 * 64):
        tab, number, message = place // 64 + 1, place % 64, 17 + 2 * place
        play.part(f"> ask {tab} shared {name}\n{tab}#{number}\nm{message} {tab}>b gen 1 #{number} request shared {name}")
        play.part(f"> deliver m{message}\nm{message + 1} b>{tab} gen 1 #{number} granted upto {number + 1}")
    play.part("> query 8\n8#0\nm913 8>b gen 1 #0 query\n> deliver m913")
    for part in range(7):
        play.part(f"m{914 + part} b>8 gen 1 #0 part {part} of 7" + f" held {part + 1} shared {name}" * 64)
    return play


def many_pieces():
    """Comments of more than a thousand pieces of 4,096 bytes, between two lines with answers."""
    comment = "> " + "#" * 65_536 + "\n"
    return Play().part("> start -\nup 1").part(comment * 64).part("> stop\nstopped 1")


def check_limits(program):
    made = [refusals, full_inbox, own_inbox, channels, data, numbers, living_tabs, listed_tabs]
    for script in [*made, locks, locks_in_parts, many_locks, many_pieces]:
        play = script()
        expect(program, f"the script {script.__name__}", play.script, play.output)


CHECKS = [check_limits]
