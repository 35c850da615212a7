"""Scripts of tabs that report in parts, and of pages under another page at the top."""

from sim_tests.limits import ASKS
from sim_tests.play import Play, expect

OPENED = """\
> start -
up 1
> open2 1 https://t.test/ https://a.test/
opened 1 https://t.test https://a.test
m1 k>1 hello 1
> deliver m1
entered 1
m2 1>b report2 1 base 0 part 0 of 1
> deliver m2
joined 1
"""

# The next broker starts. The second part of the report comes twice, and then the first part comes.
RESTARTED = """\
> stop
stopped 1
> start
up 2
m68 b>1 hello 2
> deliver m68
entered 2
"""

REPORTED = """\
m70 1>b report2 2 base 65 part 1 of 2 #64 waiting shared b
> deliver m70
part 1 of 2
> deliver m70
dropped part twice
> deliver m69
joined 1
"""


def in_two_parts():
    """A page under another top has 65 requests. After a restart its report comes in two parts, the second part first."""
    play = Play().part(OPENED)
    play.each(range(65), 3, ASKS)
    play.part(RESTARTED)
    play.part("m69 1>b report2 2 base 65 part 0 of 2" + "".join(f" #{number} waiting shared b" for number in range(64)))
    play.part(REPORTED)
    play.each(range(65), 71, "m{m} b>1 gen 2 #{n} granted upto 65")
    return play


# A query whose answer comes in two parts. The first part comes twice, and LOCKS are its locks.
QUERIED = """\
> query 1
1#65
m136 1>b gen 2 #65 query
> deliver m136
m137 b>1 gen 2 #65 part 0 of 2LOCKS
m138 b>1 gen 2 #65 part 1 of 2 held 1 shared b
> deliver m137
part 0 of 2
> deliver m137
dropped twice
> deliver m138
whole 65
"""


def snapshot_in_two_parts():
    """The tab with 65 locks queries."""
    play = in_two_parts().part(QUERIED.replace("LOCKS", " held 1 shared b" * 64))
    locks = ",".join(['{"clientId":"1","mode":"shared","name":"b"}'] * 65)
    return play.part(f'{{"held":[{locks}],"pending":[]}}').part("> deliver m137\ndropped over")


UNDER_ANOTHER_TOP = """\
> open 2 https://a.test/
opened 2 https://a.test
m136 k>2 hello 2
> deliver m136
entered 2
m137 2>b report 2 base 0
> deliver m137
joined 2
> ask 2 exclusive b
2#0
m138 2>b gen 2 #0 request exclusive b
> deliver m138
m139 b>2 gen 2 #0 granted upto 1
> open2 3 https://a.test/ https://a.test/
opened 3 https://a.test https://a.test
m140 k>3 hello 2
> deliver m140
entered 2
m141 3>b report2 2 base 0 part 0 of 1
> deliver m141
joined 3
> ask 3 shared b
3#0
m142 3>b gen 2 #0 request shared b
> deliver m142
m143 b>3 gen 2 #0 waiting upto 1
"""


def under_another_top():
    """The same site at the top shares no lock with the page. A page that names its own site as its top shares its locks."""
    return in_two_parts().part(UNDER_ANOTHER_TOP)


def check_parts(program):
    for script in [in_two_parts, snapshot_in_two_parts, under_another_top]:
        play = script()
        expect(program, f"the script {script.__name__}", play.script, play.output)


CHECKS = [check_parts]
