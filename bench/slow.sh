#!/bin/sh
# Writes a script of less than 1,000,000 bytes that is as hard on the timers as a script can be. The argument says which:
#   asks      38,500 names that 23 members miss are asked for again before each of them, lowest first
#   fixes     30,000 held names are asked for, highest first, and then repaired
#   batches   26,000 names are found missing by 23 members, 17 at a time
#   ticks     34,000 names are found missing by 7 members, 18 at a time, and asked for 18 at a time
#   repairs   30,000 missing names are asked for in one step, repaired, and the repairs come in order
exec awk -v kind="${1:?which: asks, fixes, batches, ticks or repairs}" '
# A moment before the last of its member counts as that, so most lines say 0, which is short.
function deliver(member, moment, number) { print "deliver " member " " moment " " number }
function tick(member, moment) { print "tick " member " " moment }

# Member 0 draws so many and sends them, which takes two ticks.
function draw(count) {
    for (number = 0; number < count; number++) print "draw 0 0 0.0"
    tick(0, 0)
    tick(0, 10000)
}

# A member finds all but the last missing.
function miss(member, count) { deliver(member, 20000, count - 1) }

# Member 1 asks for all that it misses: the datagrams behind so many, 33 names each. How many there are.
function ask(count) {
    tick(1, 220000)
    return int((count - 1 + 32) / 33)
}

function begin(members) {
    print "members " members
    print "bucket 100000000 1000000"
}

function asks(count, members) {
    begin(members)
    draw(count)
    for (member = 1; member < members; member++) miss(member, count)
    requests = ask(count)
    for (request = 0; request < requests; request++)
        for (member = 2; member < members; member++) deliver(member, 0, count + request)
}

function fixes(count) {
    begin(2)
    draw(count)
    miss(1, count)
    requests = ask(count)
    for (request = requests - 1; request >= 0; request--) deliver(0, 240000, count + request)
    tick(0, 340000)
}

function batches(count, members) {
    begin(members)
    draw(count)
    for (number = 17; number < count; number += 18)
        for (member = 1; member < members; member++) deliver(member, 0, number)
}

function ticks(count, members) {
    begin(members)
    draw(count)
    for (number = 18; number < count; number += 19)
        for (member = 1; member < members; member++) deliver(member, 20000 + number, number)
    for (number = 18; number < count; number += 19)
        for (member = 1; member < members; member++) tick(member, 220000 + number)
}

function repairs(count) {
    begin(2)
    draw(count)
    miss(1, count)
    requests = ask(count)
    for (request = 0; request < requests; request++) deliver(0, 0, count + request)
    tick(0, 400000)
    for (number = 0; number < count - 1; number++) deliver(1, 0, count + requests + number)
}

BEGIN {
    if (kind == "asks") asks(38500, 24)
    else if (kind == "fixes") fixes(30000)
    else if (kind == "batches") batches(26000, 24)
    else if (kind == "ticks") ticks(34000, 8)
    else if (kind == "repairs") repairs(30000)
    else { print "slow.sh: no such script: " kind > "/dev/stderr"; exit 2 }
}'
