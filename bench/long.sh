#!/bin/sh
# Writes a script of just under 1,000,000 bytes: members of one session draw in turn, a datagram in five doesn't reach a member,
# and what is missing is asked for and repaired. The argument is how many members there are, 2 to 32; 4 if there is none.
exec awk -v members="${1:-4}" '
function line(text) {
    bytes += length(text) + 1
    if (bytes > 1000000) exit
    print text
}
BEGIN {
    line("members " members)
    line("bucket 1000000 100000")
    for (round = 0; ; round++) {
        now = 1000 * round
        drawer = round % members
        line("draw " drawer " " now " 0.0 stroke " round)
        # Every tenth round all members tick: they ask, repair and report. In the others the drawer alone sends.
        if (round % 10 == 9) for (member = 0; member < members; member++) line("tick " member " " now)
        else line("tick " drawer " " now)
        # A number that is not sent yet is skipped, and so is lost.
        for (member = 0; member < members; member++) {
            if ((round * 7 + member) % 5 != 0) line("deliver " member " " now " " round)
            line("give " member " 0")
            line("take " member " 0")
        }
    }
}'
