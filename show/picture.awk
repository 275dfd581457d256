# Makes the page of a run: its words come on standard input, as words.awk writes them with -v form=tsv; by the environment (-v would read
# backslashes in names) come trace, the file of the trace that the words are of, page, the template, and title, the run's name.
#   awk -v form=tsv -f words.awk TRACE | trace=TRACE page=picture.html title=NAME awk -f picture.awk > run.html      (all with LC_ALL=C)
# The page gets the words as a list, which people and its script read, the last record and its logs for a reader without script, and the
# trace made small: for each line ">STEP ANSWER" (">" alone where it is no step line: the words have it), "!FIRST-FRAME" where that has
# changed, and "#SERVER SERVER-FRAME KEPT FRAME.." for each server that has changed, its first KEPT entries being as they were.
# Exit status: 0; 3 where the run has more lines than a page takes, and then the page says just that; 1 where something can't be read or
# trace and words don't belong together, and then there is no page.
BEGIN {
    digits = "0123456789abcdef"
    most = 5000
    trace = ENVIRON["trace"]
    page = ENVIRON["page"]
    title = html(ENVIRON["title"])
}

function html(text) {
    gsub(/&/, "\\&amp;", text)
    gsub(/</, "\\&lt;", text)
    gsub(/>/, "\\&gt;", text)
    gsub(/"/, "\\&quot;", text)
    return text
}
function hex(text, i, n) {
    n = 0
    for (i = 1; i <= length(text); i++) n = n * 16 + index(digits, substr(text, i, 1)) - 1
    return n
}
function two(frame, at) { return hex(substr(frame, at, 2)) }
function four(frame, at) { return hex(substr(frame, at, 4)) }
function follows(s, set) { # whether server s is in the set
    while (s-- > 0) set = int(set / 2)
    return set % 2
}
function keep(line) { small[++smalls] = line }

# What of the server that was just read is new. How it stood is kept as one text: two servers are the same where their texts are.
function endServer(kept, out, i) {
    if (server < 0) return
    now[server] = text
    if (text == was[server]) return
    kept = sameEntries(server)
    out = "#" server " " head " " kept
    for (i = kept + 1; i <= entries; i++) {
        out = out " " entry[i]
        wasEntry[server, i] = entry[i]
    }
    keep(out rest)
    was[server] = text
    wasEntries[server] = entries
}
function sameEntries(s, n) {
    n = 0
    while (n < entries && n < wasEntries[s] && entry[n + 1] == wasEntry[s, n + 1]) n++
    return n
}
# With another first frame another cluster has begun, of which nothing is told yet.
function takeFirst(frame) {
    if (frame == first) return
    first = frame
    keep("!" first)
    split("", was)
    split("", wasEntries)
}
function takeFrame(frame, sort) {
    sort = substr(frame, 1, 2)
    if (sort == "00") takeFirst(frame)
    else if (sort == "01") {
        endServer()
        server++
        head = text = frame
        entries = 0
        rest = ""
    } else {
        text = text " " frame
        if (sort == "02") entry[++entries] = frame
        else rest = rest " " frame
    }
}
function takePair(pair) {
    endServer()
    server = -1
    pairs++
    keep(substr(pair, length(pair) - 17, 2) == "01" ? ">" : ">" pair)
}
function readTrace(line, got) {
    server = -1
    while ((got = (getline line < trace)) > 0) {
        if (index(line, " ")) takePair(line)
        else takeFrame(line "") # a string: as numbers two long frames would be equal
    }
    endServer()
    close(trace)
    return got == 0
}

function writeWords(i, f) {
    for (i = 1; i <= lines; i++) {
        split(word[i], f, "\t")
        printf "<li value=%d data-w=%d data-k=\"%s\"%s>", f[1], f[2], f[3], (f[2] ? " class=no" : "")
        printf "<span class=s>%s</span> <span class=a>%s</span>\n", html(f[4]), html(f[5])
    }
}
function writeTrace(i) {
    for (i = 1; i <= smalls; i++) print small[i]
}

# The last record: the table's row of a server, and its log.
function tells(f, n, sort, i, out) {
    out = ""
    for (i = 2; i <= n; i++)
        if (substr(f[i], 1, 2) == sort) out = out (out == "" ? "" : "; ") "server " two(f[i], 3) ": " four(f[i], 13) " in term " four(f[i], 5)
    return out == "" ? "none" : out
}
function role(s, h) {
    if (two(h, 13)) return "primary"
    return follows(s, two(first, 7)) ? "follower" : "secondary"
}
function row(s, f, n, h, source) {
    n = split(now[s], f, " ")
    h = f[1]
    source = two(h, 11)
    return "<tr><th scope=row>server " s "<td>" role(s, h) "<td>" four(h, 15) "<td>" four(h, 3) "<td>" four(h, 19) "<td>" four(h, 23) \
        "<td>(" four(h, 27) "," four(h, 31) ")<td>" (source ? "server " (source - 1) : "none") "<td>" tells(f, n, "03") "<td>" tells(f, n, "04")
}
function entryWords(frame) {
    return (substr(frame, 7, 2) == "ff" ? "writes nothing" : "car " two(frame, 7) " build " four(frame, 9)) " (term " four(frame, 3)
}
function logOf(s, f, n, i, commit, out) {
    n = split(now[s], f, " ")
    commit = four(f[1], 19)
    out = ""
    for (i = 2; i <= n && substr(f[i], 1, 2) == "02"; i++)
        out = out (i > 2 ? "; " : "") i - 1 ": " entryWords(f[i]) (i - 1 <= commit ? ", safe)" : ")")
    return "<dt>server " s "<dd>" (out == "" ? "empty" : out)
}
function writeServers(what, s) {
    for (s = 0; s < two(first, 5); s++) print (what == "logs" ? logOf(s) : row(s))
}

function titled(line, at) {
    at = index(line, "@TITLE@")
    return at ? substr(line, 1, at - 1) title substr(line, at + 7) : line
}
function writePage(line, got) {
    while ((got = (getline line < page)) > 0) {
        if (line == "<!--WORDS-->") writeWords()
        else if (line == "<!--TRACE-->") writeTrace()
        else if (line == "<!--RECORD-->") writeServers("record")
        else if (line == "<!--LOGS-->") writeServers("logs")
        else print titled(line)
    }
    return got == 0
}
function writeLong() {
    print "<!doctype html>\n<html lang=\"en\">\n<meta charset=\"utf-8\">\n<meta name=\"viewport\" content=\"width=device-width,initial-scale=1\">"
    print "<title>" title "</title>\n<h1>" title "</h1>"
    print "<p>This run has more than " most " lines, which are too many for one page. Ask for a stretch of it by <code>--from</code> and"
    print "<code>--to</code>: <code>./replay --picture --from 1 --to " most " FILE &gt; run.html</code>. Its numbers are those of the whole run."
}
function fail(why) {
    print "picture: " why | "cat 1>&2"
    close("cat 1>&2")
    exit 1
}

{
    word[++lines] = $0
    if (lines > most) exit
}

END {
    if (lines > most) {
        writeLong()
        exit 3
    }
    if (!readTrace()) fail("the trace '" trace "' can't be read")
    if (pairs != lines) fail("the trace has " pairs + 0 " lines and the words " lines + 0)
    if (!writePage()) fail("the template '" page "' can't be read")
}
