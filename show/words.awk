# A run in words: reads a trace, brief or whole, and writes for each line of the run its number, '!' where it was refused, the step and its answer,
# and at the end a summary. They are made from step lines, answer lines and the first frames of records, by plain means: tested, and not proved.
#   -v only=refused   only lines that were refused, and the summary
#   -v from=N         the number of the first line, 1 unless it is told
#   -v rest=1         after its lines the run has a table or a plan, which is written after the summary as it is
#   -v form=tsv       parted by tabs, and no summary: number, refusal, kind (empty where it is no step line), step, answer
# In a trace a line with a blank is a pair, STEP ANSWER, and one without is a frame of a record; the launcher adds a dot where not all went well. Any
# awk does, under LC_ALL=C: so nothing is raised to a power here, a choice within a printf has parentheses, long numbers are strings, and each line is
# flushed for whoever waits for it.

# The limits that the words tell.
BEGIN {
    leastServers = 2; mostServers = 7; leastVoters = 2
    mostEntries = 128; lastCar = 15; lastNumber = 65535; mostAhead = 600
    stepLine = 26; answerLine = 18
    # What is shown of a line that is no step line, so that its answer stands in the column of all answers.
    widest = 33
}

BEGIN {
    digits = "0123456789abcdef"
    for (i = 0; i < 256; i++) byte[substr(digits, int(i / 16) + 1, 1) substr(digits, i % 16 + 1, 1)] = i
    # The field of each byte after the kind's (a, b, set or count, car, number, the term as m, time), and for each kind those that it uses.
    fields = "abscnnmmtttt"
    uses[0] = uses[1] = "as"; uses[3] = uses[4] = uses[5] = "ab"; uses[6] = "acnt"; uses[10] = uses[11] = "act"
    uses[2] = uses[7] = uses[8] = uses[9] = uses[14] = uses[16] = "a"
    uses[12] = "asnm"; uses[13] = ""; uses[15] = "acnm"
    named["\\x00"] = "NUL"; named["\\x09"] = "a tab"; named["\\x0d"] = "CR"; named["\\x20"] = "a blank"; named["\\x5c"] = "a backslash"
    short[1] = "no step line"; short[2] = "no cluster yet"; short[3] = "a number out of range"; short[4] = "wrong role"
    short[5] = "a condition not met"; short[6] = "log full"; short[7] = "a number at its limit"; short[8] = "not yet"
    short[9] = "committed entries would go"; short[10] = "no such entry"; short[11] = "clock too far ahead"; short[12] = "retired question"
    begun = from == "" ? 1 : from + 0
    number = begun - 1
}

# ---- numbers and sets

function two(line, at) { return byte[substr(line, at, 2)] }
function four(line, at) { return byte[substr(line, at, 2)] * 256 + byte[substr(line, at + 2, 2)] }
function time(p, l) { return "(" p "," l ")" }
function many(n, one, more) { return n " " (n == 1 ? one : more) }

# A set, in which bit i is server i.
function members(set, i, text) {
    for (i = 0; i < 8; i++) {
        if (set % 2 == 1) text = text (text == "" ? "" : ",") i
        set = int(set / 2)
    }
    return "{" text "}"
}

function size(set, n) {
    for (n = 0; set > 0; set = int(set / 2)) n += set % 2
    return n
}

# The lowest member from n on that is in the other set too; 8 where there is none.
function shared(set, other, n, i) {
    for (i = 0; i < 8; i++) {
        if (i >= n && set % 2 == 1 && other % 2 == 1) return i
        set = int(set / 2)
        other = int(other / 2)
    }
    return 8
}

function lowest(set, n) { return shared(set, 255, n) }
function isIn(i, set) { return lowest(set, i) == i }

# ---- a line that is no step line

# Takes what is shown of a line apart: a piece for each of its bytes, and how many more there were, "" where none.
function takeApart(shown, i, width) {
    more = ""
    if (match(shown, /\\\+[0-9]+$/)) {
        more = substr(shown, RSTART + 2)
        shown = substr(shown, 1, RSTART - 1)
    }
    pieces = 0
    for (i = 1; i <= length(shown); i += width) {
        width = substr(shown, i, 1) == "\\" ? 4 : 1
        piece[++pieces] = substr(shown, i, width)
    }
}

# As much of it as is wide enough, between quotes: a byte that is no character here is a dot.
function quoted(i, c, text) {
    for (i = 1; i <= pieces; i++) {
        c = piece[i]
        if (length(c) > 1) c = c == "\\x20" ? " " : (c == "\\x5c" ? "\\" : ".")
        text = text c
    }
    return "\"" (pieces > widest ? substr(text, 1, widest - 3) "..." : text) "\""
}

# Why it is none, in the order in which the program looks; "" where no reason is found.
function whyNone(line, i) {
    if (more != "") return (length(more) < 16 ? sprintf("%.0f", pieces + more) : "over " more) " characters, not " stepLine
    if (pieces != stepLine) return otherLength()
    i = firstOdd()
    if (i > 0) return "character " i " is " oddPiece(piece[i])
    if (!(two(line, 1) in uses)) return "there is no kind " two(line, 1) " (" substr(line, 1, 2) ")"
    return unusedByte(line, two(line, 1))
}

function otherLength(n) {
    if (pieces == 0) return "an empty line"
    if (piece[pieces] != "\\x0d") return many(pieces, "character", "characters") ", not " stepLine
    n = pieces - 1
    if (n == stepLine) return "ends in CR (a Windows file)"
    return n == 0 ? "empty but for CR (Windows)" : many(n, "character", "characters") " and CR, not " stepLine
}

# The place of the first piece that is no digit; 0 where there is none.
function firstOdd(i) {
    for (i = 1; i <= pieces; i++)
        if (index(digits, piece[i]) == 0) return i
    return 0
}

function oddPiece(c) {
    if (c in named) return named[c]
    if (length(c) > 1) return "byte " substr(c, 3, 2)
    return index("ABCDEF", c) > 0 ? "a capital " c : "'" c "', no digit"
}

function unusedByte(line, kind, i) {
    for (i = 1; i <= length(fields); i++)
        if (index(uses[kind], substr(fields, i, 1)) == 0 && two(line, 2 * i + 1) != 0)
            return "byte " (i + 1) " is " two(line, 2 * i + 1) ", unused in kind " kind
    return ""
}

# ---- a step and its answer

function stepWords() {
    if (kind == 0) return "start a cluster of " many(a, "server", "servers") (set > 0 ? ", followers " members(set) : "")
    if (kind == 1) return "servers " members(set) " elect server " a
    if (kind == 2) return "server " a " steps down"
    if (kind == 3) return "server " a " hears server " b
    if (kind == 4) return "server " a " pulls from server " b
    if (kind == 5) return "server " a " rolls back to server " b
    if (kind == 6) return "server " a " writes build " value " for car " car (p + l > 0 ? ", seen " time(p, l) : "")
    if (kind == 7) return "server " a " advances its commit point"
    if (kind == 8) return "server " a "'s wall clock goes on"
    if (kind == 9) return "server " a " restarts"
    if (kind == 10) return "local read of car " car " at server " a asked()
    if (kind == 11) return "majority read of car " car " at server " a asked()
    if (kind == 12 && set > 0) return (set == 1 ? "does 1 server" : "do " set " servers") " hold entry " value " of term " term "? at server " a
    if (kind == 12) return "is entry " value " of term " term " safe? asked at server " a
    if (kind == 13) return "all wall clocks agree"
    if (kind == 14) return "server " a " appends an entry that writes nothing"
    if (kind == 15) return "newest read of car " car " at server " a ", entry " value ", term " term
    return "server " a " takes its oldest report"
}

function asked() { return p + l > 0 ? ", as of " time(p, l) : "" }

function doneWords(number, term, p, l) {
    if (kind == 1) return "primary in term " term
    if (kind == 4 || kind == 5) return "now " many(number, "entry", "entries")
    if (kind == 6 || kind == 14) return "entry " number " of term " term ", time " time(p, l)
    if (kind == 7) return "to " number
    if (kind == 10 || kind == 11 || kind == 15) return (number > 0 ? "build " number : "no build") ", as of " time(p, l)
    if (kind == 12) return "yes, time " time(p, l)
    return "done"
}

# ---- why a step is refused: what the line tells, with the number of servers and the followers; "" where that tells nothing

function why3() {
    if (kind == 0) return badStart()
    if (!known) return ""
    if (a >= servers) return "there is no server " a
    if (kind == 1) return badElection()
    if (kind >= 3 && kind <= 5) return b >= servers ? "there is no server " b : (a == b ? "a server and itself" : "")
    if (kind == 12 && set > servers) return "there are " servers " servers, not " set
    if (index(uses[kind], "c") > 0 && car > lastCar) return "no car " car ", only 0 to " lastCar
    if (kind == 6 && value == 0) return "builds count from 1"
    return kind == 12 || kind == 15 ? badPlace() : ""
}

function badStart(voters) {
    if (a < leastServers || a > mostServers) return "a cluster has " leastServers " to " mostServers " servers"
    if (lowest(set, a) < 8) return "there is no server " lowest(set, a)
    voters = a - size(set)
    return voters < leastVoters ? (voters == 0 ? "none" : "only " voters) " would vote, " leastVoters " must" : ""
}

function badElection() {
    if (lowest(set, servers) < 8) return "there is no server " lowest(set, servers)
    if (isIn(a, followers)) return "follower " a " is never elected"
    return shared(set, followers, 0) < 8 ? "follower " shared(set, followers, 0) " has no vote" : ""
}

function badPlace() {
    if (value == 0) return "positions count from 1"
    if (value > mostEntries) return "a log has at most " mostEntries " entries"
    return term == 0 ? "terms count from 1" : ""
}

function why4() {
    if (kind == 4 || kind == 5) return "server " a " is primary"
    if (kind == 15) return "it isn't primary in term " term
    return kind == 2 || kind == 6 || kind == 7 || kind == 14 ? "server " a " is not primary" : ""
}

function why5() {
    if (kind == 1) return known ? lostElection(servers - size(followers)) : ""
    if (kind == 4) return "log not shorter, or differs"
    if (kind == 5) return "nothing to undo, or not older"
    if (kind == 7) return "nothing more known to be safe"
    return kind == 16 ? "no report is waiting" : ""
}

function lostElection(voters) {
    if (2 * size(set) <= voters) return size(set) " of " voters " voters, no majority"
    return isIn(a, set) ? "one has a later term or log" : "server " a " is not among them"
}

function why7() {
    if (kind == 1) return "its term, " lastNumber ", is the last"
    if (kind == 8) return "its clock is at its end, " lastNumber
    return kind == 6 || kind == 14 ? "no later time, l is " lastNumber : ""
}

function why8() {
    if (kind == 10) return "not yet, its log ends earlier"
    if (kind == 11) return "not yet, commit time is earlier"
    return kind == 12 || kind == 15 ? "not yet, commit point below " value : ""
}

function why(refusal) {
    if (refusal == 2) return kind != 0 && !known ? "no cluster yet, start first" : ""
    if (refusal == 3) return why3()
    if (refusal == 4) return why4()
    if (refusal == 5) return why5()
    if (refusal == 6) return kind == 6 || kind == 14 ? "its log is full, " mostEntries " entries" : ""
    if (refusal == 7) return why7()
    if (refusal == 8) return why8()
    if (refusal == 9) return kind == 5 ? "committed entries would go" : ""
    if (refusal == 10) return kind == 12 || kind == 15 ? "no entry " value " of term " term " there" : ""
    if (refusal == 11) return kind == 6 ? "phone's clock over " mostAhead " ahead" : ""
    return refusal == 12 && kind == 12 ? "retired, ask with count 0" : ""
}

function refusedWords(reason) { return "refused " refusal ": " (reason == "" ? "no reason is known here" : reason) }

# ---- line by line

# Sets the step's fields.
function readStep(line) {
    kind = two(line, 1); a = two(line, 3); b = two(line, 5); set = two(line, 7); car = two(line, 9)
    value = four(line, 11); term = four(line, 15); p = four(line, 19); l = four(line, 23)
}

# Sets how many servers there are and which of them follow.
function learn(count, followersAmong) {
    known = 1
    servers = count
    followers = followersAmong
}

function put(step, answer) {
    if (form == "tsv") printf "%d\t%d\t%s\t%s\t%s\n", number, refusal, kind, step, answer
    else if (refusal != 0 || only != "refused") printf "%5d %s %-50s  %s\n", number, (refusal != 0 ? "!" : " "), step, answer
    fflush()
}

function summary(i, total) {
    total = number - begun + 1
    if (total == 0) print "\nno lines" (begun > 1 ? " from " begun " on" : "")
    else printf "\n%s: %d done, %d refused\n", many(total, "line", "lines"), count[0], total - count[0]
    for (i = 1; i < 256; i++)
        if (i in count) printf "%7d x refused %d, %s: first at line %d\n", count[i], i, ((i in short) ? short[i] : "a refusal that is not known here"), first[i]
}

# A dot by itself says that the run didn't go well, and why is said elsewhere: so where no line has come that isn't for want of lines.
$0 == "." {
    unwell = 1
    next
}

# A table begins with the names of its columns, and a plan with a step line by itself.
rest != "" && (over || /^server  role / || (index($0, " ") == 0 && length($0) == stepLine)) {
    if (!over) {
        summary()
        print ""
    }
    over = 1
    print
    next
}

# Of a record its first frame is enough: whose sort is 00, with the edition, the number of servers and the followers.
index($0, " ") == 0 {
    if (substr($0, 1, 2) == "00") learn(two($0, 5), two($0, 7))
    next
}

{
    number++
    step = substr($0, 1, index($0, " ") - 1)
    answer = substr($0, index($0, " ") + 1)
    refusal = two(answer, 1)
    if (length(answer) != answerLine || refusal != 1 && (length(step) != stepLine || !(two(step, 1) in uses))) {
        broken = 1
        print "words: line " NR " of the trace is no step line with its answer" | "cat 1>&2"
        exit
    }
    count[refusal]++
    if (!(refusal in first)) first[refusal] = number
}

refusal == 1 {
    kind = ""
    takeApart(step)
    put("no step line: " quoted(), refusedWords(whyNone(step)))
    next
}

{
    readStep(step)
    if (refusal != 0) put(stepWords(), refusedWords(why(refusal)))
    else put(stepWords(), doneWords(four(answer, 3), four(answer, 7), four(answer, 11), four(answer, 15)))
    if (kind == 0 && refusal == 0) learn(a, set)
}

END {
    if (broken) exit 1
    if (form != "tsv" && !over && !(unwell && number < begun)) summary()
}
