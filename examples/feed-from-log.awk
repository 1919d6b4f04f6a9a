# Makes a feed of a Nagios log: hard states, downtimes, flapping, acknowledgements and their removal, the switches of notifications, and a clock
# line for each minute between them.
#
#     awk -f examples/feed-from-log.awk examples/nagios.log
#
# A log begins with the state of each host and service (INITIAL or CURRENT). One that is hard goes into the feed where it isn't
# known already: a problem that lasts, or one that ended while nobody wrote the log.
# Nagios says that a downtime started once more after it was started itself anew: that is left out, and so is the end of one that
# nothing has started. The end of flapping detection ends flapping.
#
# Of these the feed has no word: soft states, what was sent, notices that somebody delays or sends by hand. Where a night has one of
# them, `replay` may tell otherwise than Nagios did.

# The clock up to that moment, minute by minute.
function clock(now) {
    if (minute == 0) minute = now - now % 60 + 60
    for (; minute <= now; minute += 60) print "[" minute "] CLOCK"
}

# The line that says so of the host, or of its service.
function tell(kind, said) {
    clock(now)
    print "[" now "] " what "_" kind ";" about ";" said
}

# A downtime's start, where none is on, and the end of one that is.
function downtime(said, key) {
    key = what ";" about
    if (said == "STARTED" && !(key in down)) { down[key]; tell("DOWNTIME", "START") }
    else if ((said == "STOPPED" || said == "CANCELLED") && key in down) {
        delete down[key]
        tell("DOWNTIME", said == "STOPPED" ? "END" : said)
    }
}

# The hard state of the host or service so far.
function known(key) {
    key = what ";" about
    if (key in state) return state[key]
    return what == "HOST" ? "UP" : "OK"
}

match($0, /^\[[0-9]+\] /) {
    now = substr($0, 2, RLENGTH - 3) + 0
    rest = substr($0, RLENGTH + 1)
    colon = index(rest, ": ")
    if (colon == 0) next
    title = substr(rest, 1, colon - 1)
    count = split(substr(rest, colon + 2), field, ";")
    if (title == "EXTERNAL COMMAND") {
        if (field[1] == "ENABLE_NOTIFICATIONS" || field[1] == "DISABLE_NOTIFICATIONS") {
            clock(now)
            print "[" now "] " field[1]
        }
        # (2 is sticky; the next word says whether contacts are told)
        if (field[1] == "ACKNOWLEDGE_HOST_PROBLEM" || field[1] == "ACKNOWLEDGE_SVC_PROBLEM") {
            what = field[1] ~ /HOST/ ? "HOST" : "SERVICE"
            about = what == "HOST" ? field[2] : field[2] ";" field[3]
            clock(now)
            at = what == "HOST" ? 3 : 4
            tell("ACK", (field[at] == 2 ? "STICKY" : "NORMAL") (field[at + 1] == 1 ? ";NOTIFY" : ""))
        }
        if (field[1] ~ /^(REMOVE_(HOST|SVC)_ACKNOWLEDGEMENT|(ENABLE|DISABLE)_(HOST|SVC)_NOTIFICATIONS)$/) {
            what = field[1] ~ /_HOST_/ ? "HOST" : "SERVICE"
            about = what == "HOST" ? field[2] : field[2] ";" field[3]
            clock(now)
            if (field[1] ~ /^REMOVE/) tell("ACK", "NONE")
            else tell("NOTIFICATIONS", field[1] ~ /^ENABLE/ ? "ON" : "OFF")
        }
        next
    }
    if (title !~ /^(HOST|SERVICE) (ALERT|DOWNTIME ALERT|FLAPPING ALERT)$/ && title !~ /^(INITIAL|CURRENT) (HOST|SERVICE) STATE$/) next
    what = title ~ /HOST/ ? "HOST" : "SERVICE"
    about = what == "HOST" ? field[1] : field[1] ";" field[2]
    said = what == "HOST" ? 2 : 3
    if (title ~ /DOWNTIME/) downtime(field[said])
    else if (title ~ /FLAPPING/) tell("FLAPPING", field[said] == "STARTED" ? "START" : "STOP")
    else if (field[said + 1] == "HARD" && (title !~ /STATE$/ || field[said] != known())) {
        state[what ";" about] = field[said]
        tell("STATE", field[said])
    }
}
