#!/bin/sh
# Keeps a tree of time zone files as a server of RFC 7808 (tzdist) has it. `--help` has the usage.
#
# DIR becomes a symbolic link to a tree for TZDIR. In the tree each zone is a TZif file (RFC
# 9636), and each alias is a link to its zone. The trees lie beside DIR, in DIR.trees/N/zoneinfo.
# The file `state` of each has the server's token, and the tag and the digest of each zone.
#
# A run requests what changed since that token. Where the server refuses the token, it requests all
# zones. The new tree is written completely, and then DIR is renamed over to it. The tree before it
# is kept, and older ones are removed. After any failure DIR stays what it was.
#
# It needs a POSIX shell, `curl` or `wget`, and awk, cmp, cp, cut, find, ln, ls, mkdir, mv (with
# -T), od, readlink, rm, sed, sha256sum, sort, sync, tail, tr, wc and xargs, as coreutils with
# mawk or busybox have them.

# With curl all files of a run come over one connection. With wget each takes its own. The wget of
# busybox does not show the body of a refusal, so there each status 400 to a token leads to a
# request for all zones.

# Programs of awk stand in single quotes.
# shellcheck disable=SC2016
set -u
LC_ALL=C
export LC_ALL
umask 022

TAB=$(printf '\t')
MOST_LIST_BYTES=16777216
MOST_ZONE_BYTES=1048576
MOST_REDIRECTS=5
MOST_ROUNDS=8
SILENCE=20
TABLES='iso3166.tab zone.tab zone1970.tab tzdata.zi'
WELL_KNOWN=/.well-known/timezone
REFUSED_TOKEN=urn:ietf:params:tzdist:error:invalid-changedsince

usage() {
    cat <<END
usage: ${0##*/} [OPTION..] URL DIR
       ${0##*/} [OPTION..] --domain NAME DIR

Keeps DIR, a link to a tree of time zone files, as a tzdist server (RFC 7808) has it.
URL is a server, as https://tz.example.org, or its context path, as http://127.0.0.1:8008/tzdist.

  --domain NAME      find the servers of a domain by its DNS records; needs dig or drill
  --dns HOST[:PORT]  the DNS server for --domain (default: that of the system)
  --cacert FILE      the certificates of authorities that HTTPS trusts
  --tables FROM      copy iso3166.tab, zone.tab, zone1970.tab and tzdata.zi from the folder FROM,
                     where it has them, into the tree
  --timeout SECONDS  the longest time for one exchange (default: 120)
  --help             print this text

The exit status is 0 if DIR is as the server has it, 1 after a failure, and 2 for wrong arguments.
Example, once an hour by cron:

  ${0##*/} --tables /usr/share/zoneinfo https://tz.example.org /var/lib/zoneinfo
  TZDIR=/var/lib/zoneinfo date
END
}

misused() {
    printf '%s: %s; try --help\n' "${0##*/}" "$1" >&2
    exit 2
}

# One line of printable letters, whatever a server put into it.
fail() {
    printf 'failed: %s\n' "$*" | tr -c '\040-\176\n' '?' >&2
    exit 1
}

read_options() {
    domain='' dns='' cacert='' tables='' timeout=120
    while [ $# -gt 0 ]; do
        case $1 in
            --help) usage; exit 0 ;;
            --domain | --dns | --cacert | --tables | --timeout)
                [ $# -ge 2 ] || misused "$1 needs a value"
                case $1 in
                    --domain) domain=$2 ;;
                    --dns) dns=$2 ;;
                    --cacert) cacert=$2 ;;
                    --tables) tables=$2 ;;
                    --timeout) timeout=$2 ;;
                esac
                shift 2 ;;
            -*) misused "$1 is no option" ;;
            *) break ;;
        esac
    done
    if [ -n "$domain" ]; then
        [ $# -eq 1 ] || misused "with --domain, one argument is needed: DIR"
        given=''
    else
        [ $# -eq 2 ] || misused "two arguments are needed: URL DIR"
        given=$1
        shift
    fi
    link=${1%/}
    check_options
}

check_options() {
    case $timeout in
        '' | *[!0-9]* | 0*) misused "--timeout: a number of seconds from 1 on is needed" ;;
    esac
    case $domain in
        *[!A-Za-z0-9.-]* | .* | -*) misused "--domain: '$domain' is no name of a domain" ;;
    esac
    case $dns in *[!A-Za-z0-9.:%[\]-]* | -*) misused "--dns: '$dns' is no HOST or HOST:PORT" ;; esac
    case $link in '' | *"$TAB"* | *'
'*) misused "DIR: a path without tabs and line feeds is needed" ;; esac
    case $link in /*) ;; *) link=$PWD/$link ;; esac
    case $cacert in '' | /*) ;; *) cacert=$PWD/$cacert ;; esac
    case $tables in '' | /*) ;; *) tables=$PWD/$tables ;; esac
    [ -z "$cacert" ] || [ -r "$cacert" ] || fail "--cacert: $cacert cannot be read"
    [ -z "$tables" ] || [ -d "$tables" ] || fail "--tables: $tables is no folder"
    trees=$link.trees
    work=$trees/work
}

# Which of curl and wget is used.
find_client() {
    client=wget
    if command -v curl > /dev/null 2>&1; then
        client=curl
    elif ! command -v wget > /dev/null 2>&1; then
        fail "neither curl nor wget is installed"
    elif wget --version 2> /dev/null | grep -q 'GNU Wget'; then
        client=gnu
    elif [ -n "$cacert" ]; then
        # the wget of busybox leaves certificates to openssl(1), and checks none without it
        command -v openssl > /dev/null 2>&1 ||
            fail "--cacert needs curl, GNU wget, or openssl beside busybox"
        SSL_CERT_FILE=$cacert
        export SSL_CERT_FILE
    fi
    limited=''
    if [ $client != curl ] && timeout 5 true 2> /dev/null; then
        limited="timeout $timeout"
    fi
}

# ---- the trees and their lock

# The number of the tree to which DIR leads; 0 where there is no DIR.
find_current() {
    current=0
    if [ -L "$link" ]; then
        target=$(readlink "$link")
        current=${target#"${trees##*/}"/}
        current=${current%/zoneinfo}
        case $current in '' | 0* | *[!0-9]*) current=none ;; esac
        [ "$target" = "${trees##*/}/$current/zoneinfo" ] || current=none
    elif [ -e "$link" ]; then
        current=none
    fi
    [ "$current" != none ] || fail "$link: exists, and is no link to a tree in $trees"
}

# One run at a time works here. Where flock(1) is missing, a link with the process id is the lock.
take_lock() {
    mkdir -p "$trees" || fail "$trees: cannot be made"
    { true > "$trees/lock"; } 2> /dev/null || fail "$trees/lock: cannot be written"
    if command -v flock > /dev/null 2>&1; then
        exec 9> "$trees/lock"
        flock -n 9 || fail "$link: another run is at work"
    else
        read -r boot 2> /dev/null < /proc/sys/kernel/random/boot_id || boot=unknown
        lock_by_link
    fi
}

# The lock is made by link(2) or symlink(2), which fail where it exists. A lock of a process that
# ended is moved away, and put back where another run made it meanwhile.
lock_by_link() {
    holder=pid-$$-$boot
    if ! ln -s "$holder" "$trees/running" 2> /dev/null; then
        found=$(readlink "$trees/running") || found=''
        ! is_running "$found" || fail "$link: another run is at work"
        mv -fT "$trees/running" "$trees/stale.$$" 2> /dev/null
        moved=$(readlink "$trees/stale.$$") || moved=''
        if [ "$moved" != "$found" ]; then
            mv -fT "$trees/stale.$$" "$trees/running"
            fail "$link: another run is at work"
        fi
        rm -f "$trees/stale.$$"
        ln -s "$holder" "$trees/running" 2> /dev/null || fail "$link: another run is at work"
    fi
    locked=yes
}

# Whether the process of a lock is a run of this script, since the last boot.
is_running() {
    found_pid=${1#pid-}
    found_pid=${found_pid%%-*}
    case $found_pid in '' | *[!0-9]*) return 1 ;; esac
    [ "$1" = "pid-$found_pid-$boot" ] || return 1
    kill -0 "$found_pid" 2> /dev/null || [ -d "/proc/$found_pid" ] || return 1
    [ ! -r "/proc/$found_pid/cmdline" ] ||
        tr '\000' '\n' < "/proc/$found_pid/cmdline" | grep -q tzfetch
}

# Removes what is neither the current tree nor the one before it, as a run that was ended leaves it.
clean() {
    rm -rf "$work" "$trees/link"
    before=0
    for entry in "$trees"/[1-9]*; do
        number=${entry##*/}
        case $number in *[!0-9]*) continue ;; esac
        if [ "$number" -lt "$current" ] && [ "$number" -gt "$before" ]; then
            before=$number
        fi
    done
    for entry in "$trees"/[1-9]*; do
        number=${entry##*/}
        case $number in *[!0-9]* | "$current" | "$before") continue ;; esac
        rm -rf "$entry"
    done
}

at_exit() {
    status=$?
    trap '' INT TERM HUP
    rm -rf "$work"
    [ -z "${locked-}" ] || rm -f "$trees/running"
    exit "$status"
}

# ---- exchanges

# Makes requests, a line each: name, URL, value of Accept, tag for If-None-Match, and 1 to pass
# all caches. `-` stands for no value. Bodies of at most so many bytes go to body/NAME, heads to
# head/NAME. Then `replies` has a line for each: name, status, tag, and the locations of
# redirects.
exchange() {
    requests=$1 most=$2
    rm -rf "$work/body" "$work/head"
    mkdir "$work/body" "$work/head" || fail "$work: cannot be written"
    if [ $client = curl ]; then
        exchange_by_curl
    else
        exchange_by_wget
    fi
    read_heads
}

exchange_by_curl() {
    awk -v work="$work" -v cacert="$cacert" -v timeout="$timeout" -v silence=$SILENCE \
        "$CURL_CONFIG" "$requests" > "$work/config" || fail "$work: cannot be written"
    (
        # the inner shell reports a program that the limit ended, and nobody has to see it
        exec 2> /dev/null
        ulimit -f $((most / 512))
        curl -q -K "$work/config" > "$work/ended" 2> "$work/errors"
        exit $?
    )
    code=$?
    [ $code -ne 0 ] || return 0
    # the last that ended is the one that failed, or the one after it where curl was killed
    number=$(wc -l < "$work/ended")
    if [ $code -ge 128 ] || [ "$number" -eq 0 ]; then
        number=$((number + 1))
    fi
    failed_url=$(sed -n "${number}p" "$requests" | cut -f 2)
    why=$(sed -n 's/^curl: //p' "$work/errors" | tail -n 1)
    case $code in 23 | 153) why="an answer of more than $most bytes, or a full disk" ;; esac
    fail "$failed_url: ${why:-curl ended with status $code}"
}

# A request of each line as a block of curl's configuration.
CURL_CONFIG='
function quoted(text) {
    gsub(/\\/, "\\\\", text)
    gsub(/"/, "\\\"", text)
    return "\"" text "\""
}
BEGIN { FS = "\t" }
{
    if (NR == 1) print "fail-early"
    else print "next"
    print "url = " quoted($2)
    print "output = " quoted(work "/body/" $1)
    print "dump-header = " quoted(work "/head/" $1)
    print "silent\nshow-error\ngloboff\nhttp1.1"
    print "proto = \"=http,https\""
    print "connect-timeout = " silence "\nspeed-limit = 1\nspeed-time = " silence
    print "max-time = " timeout
    if (cacert != "") print "cacert = " quoted(cacert)
    if ($3 != "-") print "header = " quoted("Accept: " $3)
    if ($4 != "-") print "header = " quoted("If-None-Match: " $4)
    if ($5 == 1) print "header = \"Cache-Control: no-cache\""
    print "write-out = \"ended\\n\""
}'

exchange_by_wget() {
    while IFS=$TAB read -r name url accept tag fresh_one; do
        set -- wget -S -O "$work/body/$name"
        if [ $client = wget ]; then
            set -- "$@" -q
        else
            set -- "$@" -nv -t 1 --max-redirect=$MOST_REDIRECTS --content-on-error
            [ -z "$cacert" ] || set -- "$@" --ca-certificate="$cacert"
        fi
        [ "$accept" = - ] || set -- "$@" --header "Accept: $accept"
        [ "$tag" = - ] || set -- "$@" --header "If-None-Match: $tag"
        [ "$fresh_one" = 0 ] || set -- "$@" --header "Cache-Control: no-cache"
        head=$work/head/$name
        # shellcheck disable=SC2086
        (
            exec 2> /dev/null
            ulimit -f $((most / 512))
            $limited "$@" "$url" < /dev/null 2> "$head"
            exit $?
        )
        judge_wget $?
    done < "$requests"
}

# Judges an exchange of wget by its exit status and by what it wrote to standard error.
judge_wget() {
    if grep -q 'certificate validation not implemented' "$head"; then
        fail "$url: this wget does not check certificates; install curl or openssl"
    fi
    case $1 in
        0) return 0 ;;
        153) fail "$url: an answer of more than $most bytes, or a full disk" ;;
        124 | 143) fail "$url: no complete answer within $timeout seconds" ;;
    esac
    # a status that wget takes for an error is judged later
    last=$(sed -n 's/^ *HTTP\/[0-9.]* \([0-9][0-9][0-9]\).*/\1/p' "$head" | tail -n 1)
    case $last in [345]??) return 0 ;; esac
    why=$(grep -v '^ ' "$head" | sed 's/^wget: //' | grep . | tail -n 1)
    fail "$url: ${why:-wget ended with status $1}"
}

# Reads the heads as curl or wget wrote them, and compares the lengths of bodies with what heads
# say.
read_heads() {
    (
        cd "$work/body" && find . -type f -exec wc -c {} + > ../sizes
        cd "$work/head" && find . -type f -exec awk "$READ_HEADS" {} + > ../heads
    ) 2> /dev/null
    awk -v most="$most" "$JUDGE_HEADS" "$work/heads" "$work/sizes" "$requests" > "$work/replies"
    fault=$(sed -n "s/^FAULT$TAB//p" "$work/replies" | sed -n 1p)
    [ -z "$fault" ] || fail "$fault"
}

# Of each file of heads the last head: name, status, tag, length, `chunked`, and all locations.
READ_HEADS='
function show() {
    if (name != "") printf "%s\t%s\t%s\t%s\t%s\t%s\n", name, status, tag, length_, chunked, places
}
function start(file) {
    name = substr(file, 3)
    status = ""
    places = ""
}
FNR == 1 { show(); start(FILENAME) }
{ sub(/\r$/, ""); sub(/^ +/, "") }
/^HTTP\/[0-9.]+ [0-9][0-9][0-9]/ {
    status = substr($2, 1, 3)
    tag = length_ = "-"
    chunked = 0
    next
}
status != "" && /^[!-9;-~]+:/ {
    colon = index($0, ":")
    field = tolower(substr($0, 1, colon - 1))
    value = substr($0, colon + 1)
    gsub(/^[ \t]+|[ \t]+$/, "", value)
    if (field == "etag" && value ~ /^(W\/)?"[!#-~]*"$/) tag = value
    else if (field == "content-length")
        length_ = length_ == "-" || length_ == value ? value : "several"
    else if (field == "transfer-encoding") chunked = tolower(value) == "chunked"
    else if (field == "location" && value !~ /[^!-~]|[*?[]/) places = places " " value
}
END { show() }'

JUDGE_HEADS='
BEGIN { FS = "\t" }
FILENAME ~ /heads$/ {
    status[$1] = $2; tag[$1] = $3; told[$1] = $4; chunked[$1] = $5; places[$1] = $6
    next
}
FILENAME ~ /sizes$/ {
    split($0, word, " ")
    if (word[2] ~ /^\.\//) size[substr(word[2], 3)] = word[1]
    next
}
function fault_of(name,   held) {
    if (status[name] == "") return "no answer of HTTP"
    if (status[name] != 200) return ""
    held = size[name] + 0
    if (told[name] == "several") return "an answer with several lengths"
    if (told[name] == "-" && !chunked[name]) return "an answer that does not have its length"
    if (told[name] != "-" && !chunked[name] && told[name] + 0 != held)
        return "half an answer: " held " of " told[name] " bytes"
    if (held > most) return "an answer of more than " most " bytes"
    return ""
}
{
    fault = fault_of($1)
    if (fault != "") print "FAULT\t" $2 ": " fault
    print $1 "\t" status[$1] "\t" tag[$1] "\t" places[$1]
}'

# ---- the server

# Splits a URL, of which the scheme, the host and the port have to be right.
check_url() {
    authority=${1#*://}
    path=/${authority#*/}
    [ "$path" != "/$authority" ] || path=''
    authority=${authority%%/*}
    case $1 in
        http://* | https://*) ;;
        *) fail "'$1' is no URL of a server" ;;
    esac
    if ! printf '%s\n' "$authority" |
        grep -Eq '^([^]@:/?#[[:space:]]+|\[[0-9A-Fa-f:.]+])(:[0-9]{1,5})?$' ||
        ! printf '%s\n' "$path" | grep -Eq '^[!-~]*$'; then
        fail "'$1' is no URL of a server"
    fi
}

# The URL of the context path: the one given, or where the well-known address leads.
find_context() {
    context=${1%/}
    check_url "$context"
    [ -z "$path" ] || return 0
    at=$context$WELL_KNOWN
    redirects=0
    while [ $redirects -lt $MOST_REDIRECTS ]; do
        printf 'well-known\t%s\t-\t-\t0\n' "$at" > "$work/requests"
        exchange "$work/requests" $MOST_LIST_BYTES
        IFS=$TAB read -r name status tag places < "$work/replies"
        # wget follows redirects by itself, so that there may be several places
        case $client,$status in curl,30[12378]) ;; curl,*) places='' ;; esac
        for place in ${places:-nowhere}; do
            follow_place "$place"
            [ "$path" = $WELL_KNOWN ] || return 0
        done
        redirects=$((redirects + 1))
    done
    fail "$1: more than $MOST_REDIRECTS redirects"
}

# Sets `at`, `context` and `path` by the place to which a redirect from `at` leads.
follow_place() {
    case $1 in
        nowhere) fail "$at: status $status, which leads to no context path" ;;
        http://* | https://*) context=$1 ;;
        //*) context=${at%%://*}:$1 ;;
        /*) context=${at%%://*}://$authority$1 ;;
        *://*) fail "$at: leads to '$1', which is no URL of a server" ;;
        *) context=${at%/*}/$1 ;;
    esac
    case $at,$context in
        https://*,http://*) fail "$at: leads to '$context', which is not https" ;;
    esac
    context=${context%/}
    check_url "$context"
    at=$context
}

# Gets the zones that changed since the token, or all of them: sets `listed_token` and `changes`.
get_list() {
    changes=0
    if [ -n "$token" ]; then
        target="$context/zones?changedsince="$(printf '%s\n' "$token" | awk "$PERCENT")
        ask_list "$target"
        if [ "$status" = 200 ]; then
            changes=1
        elif [ "$status" != 400 ] || ! is_refused_token; then
            fail "$target: status $status"
        fi
    fi
    if [ $changes = 0 ]; then
        target=$context/zones
        ask_list "$target"
        [ "$status" = 200 ] || fail "$target: status $status"
    fi
    read_list
    if [ -s "$work/list.fault" ]; then
        fail "$(cat "$work/list.fault")"
    fi
    listed_token=$(sed -n "s/^T$TAB//p" "$work/list")
}

ask_list() {
    printf 'list\t%s\t-\t-\t%s\n' "$1" "$fresh" > "$work/requests"
    exchange "$work/requests" $MOST_LIST_BYTES
    IFS=$TAB read -r name status tag places < "$work/replies"
}

# Whether the problem document (RFC 7807) says that the token is refused. The wget of busybox
# hides it.
is_refused_token() {
    [ $client != wget ] || return 0
    awk "$READ_JSON"'
        function at_string(text) { if (depth == 1 && key[1] == "type") kind_of_problem = text }
        function at_scalar() { }
        function at_open() { }
        function at_close() { }
        END { exit !(is_whole() && kind_of_problem == "'$REFUSED_TOKEN'") }' \
        "$work/body/list" 2> /dev/null
}

# The list document (RFC 7808, 6.2) as lines: T token, Z zone tag, A alias zone.
read_list() {
    : > "$work/list.fault"
    cp "$work/body/list" "$work/document" 2> /dev/null || : > "$work/document"
    tr -d '\000' < "$work/document" > "$work/letters"
    if ! cmp -s "$work/document" "$work/letters" ||
        ! awk "$READ_JSON$READ_LIST" "$work/document" > "$work/list" 2> /dev/null; then
        echo "a list that is none" > "$work/list.fault"
    fi
}

# A reader of JSON (RFC 8259). A record is what stands between two quotation marks: a part without
# strings, then a string, and so on. Containers are in kind[1..depth], the names of members in
# key[1..depth].
READ_JSON='
BEGIN {
    RS = "\""
    depth = 0
    want = "v"
    broken = inside = 0
    scalar = "^(true|false|null|-?(0|[1-9][0-9]*)([.][0-9]+)?([eE][+-]?[0-9]+)?)"
}
function reject() { broken = 1; exit 1 }
function is_whole() { return !broken && want == "E" }
function after_value() { want = depth == 0 ? "E" : kind[depth] == "{" ? ",}" : ",]" }
function decoded(text,   out, at, letter, code) {
    if (text ~ /[\001-\037]/) reject()
    out = ""
    while ((at = index(text, "\\")) > 0) {
        out = out substr(text, 1, at - 1)
        letter = substr(text, at + 1, 1)
        text = substr(text, at + 2)
        if (letter == "u") {
            code = ascii_of(tolower(substr(text, 1, 4)))
            text = substr(text, 5)
            out = out code
        } else if (index("\"\\/", letter) > 0) out = out letter
        else if (index("bfnrt", letter) > 0) out = out "\177"
        else reject()
    }
    return out text
}
# Other letters than those of ASCII stand for no name, tag or token that is read here.
function ascii_of(digits,   high, low) {
    if (digits !~ /^[0-9a-f][0-9a-f][0-9a-f][0-9a-f]$/) reject()
    high = index("0123456789abcdef", substr(digits, 3, 1)) - 1
    low = index("0123456789abcdef", substr(digits, 4, 1)) - 1
    if (substr(digits, 1, 2) != "00" || high > 7 || high < 2) return "\177"
    return sprintf("%c", 16 * high + low)
}
function string(text) {
    if (index(want, "k") > 0) {
        key[depth] = decoded(text)
        want = ":"
    } else if (index(want, "v") > 0) {
        at_string(decoded(text))
        after_value()
    } else reject()
}
function open(letter) {
    if (index(want, "v") == 0 || depth >= 64) reject()
    kind[++depth] = letter
    key[depth] = ""
    want = letter == "{" ? "k}" : "v]"
    at_open()
}
function close_(letter) {
    if (index(want, letter) == 0) reject()
    at_close()
    depth--
    after_value()
}
function sign(letter) {
    if (letter == "{" || letter == "[") open(letter)
    else if (letter == "}" || letter == "]") close_(letter)
    else if (index(want, letter) == 0) reject()
    else if (letter == ":") want = "v"
    else want = kind[depth] == "{" ? "k" : "v"
}
function between(text,   letter) {
    if (length(text) > 65536) reject()
    while (1) {
        sub(/^[ \t\r\n]+/, "", text)
        if (text == "") return
        letter = substr(text, 1, 1)
        if (index("{}[]:,", letter) > 0) {
            sign(letter)
            text = substr(text, 2)
        } else if (match(text, scalar)) {
            if (index(want, "v") == 0) reject()
            at_scalar()
            after_value()
            text = substr(text, RLENGTH + 1)
            if (text ~ /^[A-Za-z0-9.+-]/) reject()
        } else reject()
    }
}
{
    if (!inside) {
        between($0)
        held = ""
        inside = 1
        next
    }
    held = held $0
    match(held, /\\*$/)
    if (RLENGTH % 2) {
        held = held "\""
        next
    }
    string(held)
    inside = 0
}'

READ_LIST='
function is_text(text) { return text ~ /^[ -~]*$/ }
function in_list() { return depth >= 2 && kind[1] == "{" && key[1] == "timezones" }
function at_string(text) {
    if (depth == 1 && key[1] == "synctoken") token = text
    else if (depth == 1 && key[1] == "timezones") reject()
    else if (in_list() && depth == 2) reject()
    else if (in_list() && depth == 3) {
        if (key[3] == "tzid") { tzid = text; has_tzid = 1 }
        else if (key[3] == "etag") { etag = text; has_etag = 1 }
        else if (key[3] == "aliases") reject()
    } else if (in_list() && depth == 4 && key[3] == "aliases") alias[++aliases] = text
}
function at_scalar() {
    if (depth == 1 && (key[1] == "synctoken" || key[1] == "timezones")) reject()
    if (in_list() && depth == 2) reject()
    if (in_list() && depth == 3 && key[3] ~ /^(tzid|etag|aliases)$/) reject()
    if (in_list() && depth == 4 && key[3] == "aliases") reject()
}
function at_open() {
    if (depth == 1 && kind[1] != "{") reject()
    if (depth == 2 && key[1] == "synctoken") reject()
    if (depth == 2 && key[1] == "timezones") {
        if (kind[2] != "[" || has_list) reject()
        has_list = 1
    }
    if (!in_list()) return
    if (depth == 3) {
        if (kind[3] != "{") reject()
        has_tzid = has_etag = aliases = 0
    }
    if (depth == 4 && key[3] ~ /^(tzid|etag)$/) reject()
    if (depth == 4 && key[3] == "aliases") {
        if (kind[4] != "[") reject()
        aliases = 0
    }
    if (depth == 5 && key[3] == "aliases") reject()
}
function at_close(   number) {
    if (!in_list() || depth != 3) return
    if (!has_tzid || !has_etag || !is_text(etag)) reject()
    gsub(/[^ -~]/, "?", tzid)
    print "Z\t" tzid "\t" etag
    for (number = 1; number <= aliases; number++) {
        gsub(/[^ -~]/, "?", alias[number])
        print "A\t" alias[number] "\t" tzid
    }
}
END {
    if (!is_whole() || !has_list || token == "" || !is_text(token)) exit 1
    print "T\t" token
}'

PERCENT='
BEGIN { for (code = 1; code < 256; code++) number[sprintf("%c", code)] = code }
{
    for (at = 1; at <= length($0); at++) {
        letter = substr($0, at, 1)
        if (letter ~ /[A-Za-z0-9_.~-]/) printf "%s", letter
        else printf "%%%02X", number[letter]
    }
}'

# ---- catching up

# Rounds until what is held is what one list of the server says. What lies between may keep
# answers, and the server may go on meanwhile. So a file whose tag does not show that it is the
# listed one is requested again past all caches. Where that does not show it either, the file is
# in doubt until a list past all caches has still the same token. Under another token it is
# requested again.
catch_up() {
    fresh=0 round=0 gets=0
    mkdir "$work/files" || fail "$work: cannot be written"
    : > "$work/doubted"
    cp "$work/held" "$work/state" || fail "$work: cannot be written"
    while [ $round -lt $MOST_ROUNDS ]; do
        round=$((round + 1))
        one_round
        [ -s "$work/doubted" ] || return 0
        fresh=1
    done
    fail "$context: it changed in each of $MOST_ROUNDS rounds"
}

one_round() {
    get_list
    [ "$listed_token" != "$token" ] || : > "$work/doubted"
    if [ $changes = 1 ]; then cp "$work/state" "$work/base"; else : > "$work/base"; fi
    awk "$MERGE" "$work/state" "$work/base" "$work/list" "$work/doubted" > "$work/merged" ||
        fail "$(sed -n "s/^FAULT$TAB//p" "$work/merged")"
    sed -n "s/^G$TAB//p" "$work/merged" > "$work/gets"
    : > "$work/got"
    if [ -s "$work/gets" ]; then
        get_zones "$work/gets" $fresh
        awk "$TELLS"'!tells($2, $4) { print $1 }' "$work/got" > "$work/untold"
        if [ $fresh = 0 ] && [ -s "$work/untold" ]; then
            awk 'BEGIN { FS = "\t" } NR == FNR { again[$1]; next } $1 in again' \
                "$work/untold" "$work/gets" > "$work/gets.again"
            get_zones "$work/gets.again" 1
        fi
    fi
    # of a zone that was requested twice the second line counts
    awk "$TAKE" "$work/got" "$work/merged" > "$work/state"
    awk "$TELLS"'NR == FNR { tag[$1] = $2; etag[$1] = $4; next }
        $1 == "Z" && ($2 in tag) && !tells(tag[$2], etag[$2]) { print $2 }' \
        "$work/got" "$work/state" > "$work/doubted"
    token=$listed_token
}

# A tag of a file shows that it is the one of a list's entry. Of tzdistd it is the entry's with
# `.t`.
TELLS='
BEGIN { FS = "\t" }
function bare(tag) { sub(/^(W\/)?"/, "", tag); sub(/"$/, "", tag); return tag }
function tells(tag, etag) {
    return tag != "-" && (bare(tag) == bare(etag) || bare(tag) == bare(etag) ".t")
}'

# Writes the zones after a list, and a line G for each that is to be requested: zone, tag of the
# list, tag to request with, and digest. A name that the list gives to a zone is no other zone's
# any more.
MERGE="$TELLS"'
BEGIN { identifier = "^[A-Za-z0-9_+.-]+(/[A-Za-z0-9_+.-]+)*$" }
function fault(text) { print "FAULT\t" text; failed = 1; exit 1 }
FILENAME ~ /state$/ {
    if ($1 == "Z") { etag[$2] = $3; tag[$2] = $4; digest[$2] = $5 }
    next
}
FILENAME ~ /base$/ {
    if ($1 == "Z") order[++count] = $2
    else owner[++links] = $3 "\t" $2
    next
}
FILENAME ~ /list$/ {
    if ($1 == "Z") {
        if ($2 in new) twice = 1
        listed[++entries] = $2
        new[$2] = $3
    }
    if ($1 == "A") given[++aliases] = $3 "\t" $2
    if ($1 != "T") taken[$2]
    next
}
FILENAME ~ /doubted$/ { again[$1] }
function name(text) {
    if (length(text) > 64 || text !~ identifier || ("/" text "/") ~ /\/\.\.?\//)
        fault("\047" substr(text, 1, 80) "\047 is no name of a zone")
    if (text in known) fault("a name that stands twice")
    known[text]
    names++
}
function below(text,   at, part) {
    part = text
    while (match(part, /\/[^\/]*$/)) {
        part = substr(part, 1, RSTART - 1)
        if (part in known) fault("\047" text "\047 lies below another zone")
    }
}
function show_zone(tzid, listed_tag,   ask) {
    if ((tzid in etag) && etag[tzid] == listed_tag && !(tzid in again))
        print "Z\t" tzid "\t" listed_tag "\t" tag[tzid] "\t" digest[tzid]
    else {
        ask = (tzid in etag) && tag[tzid] != "-" && !tells(tag[tzid], etag[tzid]) ? tag[tzid] : "-"
        print "Z\t" tzid "\t" listed_tag "\t-\t-"
        print "G\t" tzid "\t" listed_tag "\t" ask "\t" ((tzid in digest) ? digest[tzid] : "-")
    }
}
END {
    if (failed) exit 1
    if (twice) fault("a name that stands twice")
    for (at = 1; at <= count; at++) if (!(order[at] in taken)) zones[++total] = order[at]
    for (at = 1; at <= entries; at++) zones[++total] = listed[at]
    if (total == 0) fault("a list without zones")
    for (at = 1; at <= links; at++) {
        split(owner[at], part, "\t")
        if (!(part[1] in taken) && !(part[2] in taken)) alias[++all] = owner[at]
    }
    for (at = 1; at <= aliases; at++) alias[++all] = given[at]
    if (total + all > 16384) fault(total + all " names, more than 16384")
    for (at = 1; at <= total; at++) name(zones[at])
    for (at = 1; at <= all; at++) { split(alias[at], part, "\t"); name(part[2]) }
    for (text in known) below(text)
    # those of the list come first, in its order
    for (at = total - entries + 1; at <= total; at++) show_zone(zones[at], new[zones[at]])
    for (at = 1; at <= total - entries; at++) show_zone(zones[at], etag[zones[at]])
    for (at = 1; at <= all; at++) { split(alias[at], part, "\t"); print "A\t" part[2] "\t" part[1] }
}'

# The zones with the tags and digests that came.
TAKE='
BEGIN { FS = OFS = "\t" }
FILENAME ~ /got$/ { tag[$1] = $2; digest[$1] = $3; next }
$1 == "G" { next }
$1 == "Z" && ($2 in tag) { $4 = tag[$2]; $5 = digest[$2] }
{ print }'

# Gets the zones of a file of lines as MERGE writes them. Files go to files/NAME, in which a comma
# stands for each slash, and `got` gets a line for each: zone, tag, digest, tag of the list.
get_zones() {
    gets=$((gets + $(wc -l < "$1")))
    awk -v context="$context" -v fresh="$2" 'BEGIN { FS = OFS = "\t" } {
        name = target = $1
        gsub(/\//, ",", name)
        gsub(/\+/, "%2B", target)
        gsub(/\//, "%2F", target)
        print name, context "/zones/" target, "application/tzif", $3, fresh
    }' "$1" > "$work/requests"
    exchange "$work/requests" $MOST_ZONE_BYTES
    fault=$(awk "$STATUS_FAULT" "$work/requests" "$work/replies")
    [ -z "$fault" ] || fail "$fault"
    sed -n "s/$TAB"'200'"$TAB.*//p" "$work/replies" > "$work/came"
    : > "$work/digests"
    if [ -s "$work/came" ]; then
        check_files
        (
            cd "$work/body" && sed 's/^/.\//' ../came | xargs sha256sum > ../digests &&
                sed 's/^/.\//' ../came | xargs -n 100 sh -c 'mv -f "$@" ../files/' sh
        ) || fail "$work: cannot be written"
    fi
    awk "$GOT" "$work/digests" "$work/replies" "$1" >> "$work/got"
}

STATUS_FAULT='
BEGIN { FS = "\t" }
NR == FNR { url[$1] = $2; tag[$1] = $4; next }
$2 != 200 && !($2 == 304 && tag[$1] != "-") { print url[$1] ": status " $2; exit }'

GOT='
BEGIN { FS = OFS = "\t" }
FILENAME ~ /digests$/ { split($0, word, " "); digest[substr(word[2], 3)] = word[1]; next }
FILENAME ~ /replies$/ { status[$1] = $2; tag[$1] = $3; next }
{
    name = $1
    gsub(/\//, ",", name)
    if (status[name] == 304) print $1, $3, $4, $2
    else print $1, tag[name], digest[name], $2
}'

# Judges the TZif files that came: both blocks, and the footer, after which nothing follows.
check_files() {
    while read -r name; do
        printf '= %s\n' "$name"
        od -An -v -tu1 "$work/body/$name" 2> /dev/null
    done < "$work/came" | awk "$CHECK_TZIF" > "$work/bad"
    if [ -s "$work/bad" ]; then
        IFS=$TAB read -r name why < "$work/bad"
        failed_url=$(awk -v name="$name" '$1 == name { print $2 }' "$work/requests")
        fail "$failed_url: $why"
    fi
}

CHECK_TZIF='
BEGIN {
    letters = "([A-Za-z][A-Za-z][A-Za-z]+|<[A-Za-z0-9+-][A-Za-z0-9+-][A-Za-z0-9+-]+>)"
    hours = "[+-]?[0-9][0-9]?[0-9]?(:[0-9][0-9])?(:[0-9][0-9])?"
    date = ",(J?[0-9][0-9]?[0-9]?|M[0-9][0-9]?[.][1-5][.][0-6])(/" hours ")?"
    footer = "^(" letters hours "(" letters "(" hours ")?" date date ")?)?$"
}
function u32(at) { return ((b[at] * 256 + b[at + 1]) * 256 + b[at + 2]) * 256 + b[at + 3] }
function i32(at) { return b[at] > 127 ? u32(at) - 4294967296 : u32(at) }
# Where the block ends whose header begins there, whose times have so many bytes; 0 after a fault.
function block(at, size,   end) {
    if (size_of < at + 44 || u32(at) != 1415211366) {
        why = "no TZif file"
        return 0
    }
    if (b[at + 4] < 50 || b[at + 4] > 52) {
        why = "a TZif file of a version other than 2, 3 or 4"
        return 0
    }
    ut = u32(at + 20); standard = u32(at + 24); leaps = u32(at + 28)
    times = u32(at + 32); types = u32(at + 36); chars = u32(at + 40)
    end = at + 44 + (size + 1) * times + 6 * types + chars + (size + 4) * leaps + standard + ut
    if (end > size_of) { why = "a TZif file that is cut off"; return 0 }
    return end
}
function check_times(at,   number, high, low, old_high, old_low) {
    for (number = 0; number < times; number++) {
        high = i32(at); low = u32(at + 4)
        if (number > 0 && (high < old_high || (high == old_high && low <= old_low)))
            return "a TZif file whose transitions do not rise"
        old_high = high; old_low = low
        at += 8
    }
    for (number = 0; number < times; number++)
        if (b[at + number] >= types) return "a TZif file with a transition to no type"
    return ""
}
function check_types(at,   number, offset, begin, found, place) {
    begin = at + 6 * types
    for (number = 0; number < types; number++) {
        offset = i32(at)
        found = 0
        for (place = b[at + 5]; place < chars && !found; place++) found = b[begin + place] == 0
        if (offset >= 93600 || offset <= -93600 || b[at + 4] > 1 || !found)
            return "a TZif file with an impossible type"
        at += 6
    }
    return ""
}
function check_footer(at,   text) {
    if (b[at] != 10 || b[size_of - 1] != 10 || size_of < at + 2) return 0
    for (at++; at < size_of - 1; at++) {
        if (b[at] < 33 || b[at] > 126) return 0
        text = text sprintf("%c", b[at])
    }
    return text ~ footer
}
function fault(   second, end) {
    if (!(second = block(0, 4)) || !(end = block(second, 8))) return why
    if (b[second + 4] != b[4]) return "a TZif file of two versions"
    if (types == 0 || chars == 0 || ut % types != 0 || ut > types || standard % types != 0 ||
        standard > types)
        return "a TZif file with impossible counts"
    if (leaps > 0) return "a TZif file with leap seconds"
    if ((why = check_times(second + 44)) != "") return why
    if ((why = check_types(second + 44 + 9 * times)) != "") return why
    if (!check_footer(end)) return "a TZif file without a whole footer"
    return ""
}
function show(   text) {
    if (name == "") return
    for (text = size_of; text < size_of + 50; text++) b[text] = -1
    if ((text = fault()) != "") print name "\t" text
}
$1 == "=" { show(); name = $2; size_of = 0; next }
{ for (field = 1; field <= NF; field++) b[size_of++] = $field + 0 }
END { show() }'

# ---- trees

# The state of the current tree, where it came from this server or domain, of the zones whose
# files are what they were: `held`, and `token`, which is empty where something was lost.
read_state() {
    token=''
    : > "$work/held"
    [ "$current" != 0 ] && [ -f "$trees/$current/state" ] || return 0
    awk -v url="$1" -v domain="$domain" "$READ_STATE" "$trees/$current/state" > "$work/kept" ||
        return 0
    grep -q "^Z$TAB" "$work/kept" || return 0
    (
        cd "$trees/$current/zoneinfo" 2> /dev/null || exit 0
        sed -n "s/^Z$TAB\([^$TAB]*\).*/.\/\1/p" "$work/kept" | xargs sha256sum > "$work/found.files"
        sed -n "s/^A$TAB\([^$TAB]*\).*/.\/\1/p" "$work/kept" > "$work/names"
        [ ! -s "$work/names" ] || xargs ls -ld < "$work/names" > "$work/found.links"
    ) 2> /dev/null
    touch "$work/found.files" "$work/found.links"
    awk "$RELATIVE$WHOLE" "$work/found.files" "$work/found.links" "$work/kept" "$work/kept" \
        > "$work/held"
    if [ "$(wc -l < "$work/held")" -eq "$(grep -c "^[ZA]$TAB" "$work/kept")" ]; then
        token=$(sed -n "s/^token$TAB//p" "$work/kept")
    fi
}

# The lines of a state that is whole. Of another server of the same domain the token does not count.
READ_STATE='
BEGIN { FS = "\t" }
NR == 1 && $0 != "tzfetch\t1" { exit 1 }
{ line[NR] = $0; value[$1] = $2 }
END {
    if (NR < 5 || line[NR] != "end") exit 1
    if (value["url"] != url && (domain == "" || value["domain"] != domain)) exit 1
    for (at = 2; at < NR; at++) {
        split(line[at], part, "\t")
        if (part[1] == "Z" || part[1] == "A") print line[at]
        else if (part[1] == "token" && value["url"] == url) print line[at]
    }
}'

# The text of the link of an alias to its zone.
RELATIVE='
function relative(alias, zone,   a, z, depth, common, at, text) {
    depth = split(alias, a, "/")
    split(zone, z, "/")
    common = 0
    while (common < depth - 1 && a[common + 1] == z[common + 1] && (common + 2) in z) common++
    for (at = common + 1; at < depth; at++) text = text "../"
    for (at = common + 1; at in z; at++) text = text (at > common + 1 ? "/" : "") z[at]
    return text
}'

WHOLE='
BEGIN { FS = "\t" }
FILENAME ~ /found.files$/ { split($0, word, " "); digest[substr(word[2], 3)] = word[1]; next }
FILENAME ~ /found.links$/ {
    count = split($0, word, " ")
    if (word[count - 1] == "->") leads[substr(word[count - 2], 3)] = word[count]
    next
}
FNR == 1 { pass++ }
pass == 1 && $1 == "Z" && digest[$2] != $5 { lost[$2] }
pass == 1 && $1 == "A" && leads[$2] != relative($2, $3) { lost[$3] }
pass == 2 && (($1 == "Z" && !($2 in lost)) || ($1 == "A" && !($3 in lost)))'

write_state() {
    if ! {
        printf 'tzfetch\t1\nurl\t%s\ndomain\t%s\ntoken\t%s\n' "$1" "$domain" "$token" &&
            cat "$work/state" && echo end
    } > "$2.new" || ! sync "$2.new" || ! mv -f "$2.new" "$2" || ! sync "${2%/*}"; then
        fail "$2: cannot be written"
    fi
}

# Writes a tree whole: new files as they came, and the others as links to those of the old tree.
make_tree() {
    number=$((current + 1))
    root=$trees/$number/zoneinfo
    old=$trees/$current/zoneinfo
    unwritten="$trees/$number: cannot be written"
    mkdir -p "$root" || fail "$unwritten"
    find "$work/files" -type f | sed 's/.*\///' > "$work/fresh"
    awk "$RELATIVE$TREE_PLAN" "$work/fresh" "$work/state" > "$work/plan"
    cd "$root" || fail "$unwritten"
    plan D | sort -u > "$work/folders"
    [ ! -s "$work/folders" ] || xargs mkdir -p < "$work/folders" || fail "$unwritten"
    plan L | while IFS=$TAB read -r target name; do
        ln -s "$target" "$name" || exit 1
    done || fail "$unwritten"
    plan F | while IFS=$TAB read -r file name; do
        mv -f "$work/files/$file" "$name" || exit 1
    done || fail "$unwritten"
    plan K > "$work/keep"
    cut -f 1 "$work/keep" | sort -u > "$work/folders"
    while read -r folder; do
        awk -v folder="$folder" 'BEGIN { FS = "\t" } $1 == folder { print $2 }' "$work/keep" \
            > "$work/names"
        keep_files "$folder" || fail "$unwritten"
    done < "$work/folders"
    [ -z "$tables" ] || copy_tables || fail "$unwritten"
    sync_tree || fail "$unwritten"
    write_state "$1" "$trees/$number/state"
}

# Waits until the new files and all folders of a tree are on the disk.
sync_tree() {
    {
        plan F | cut -f 2
        [ -z "$tables" ] || wanted_tables
    } > "$work/names"
    [ ! -s "$work/names" ] || xargs sync < "$work/names" || return 1
    find . -type d -exec sync {} + && cd "$trees" && sync .
}

plan() {
    sed -n "s/^$1$TAB//p" "$work/plan"
}

# What a tree needs: D folder, L target and link, F new file and its name, K folder and a file to
# keep.
TREE_PLAN='
BEGIN { FS = OFS = "\t" }
FILENAME ~ /fresh$/ { fresh[$1]; next }
{
    folder = "./" $2
    sub(/\/[^\/]*$/, "", folder)
    print "D", folder
    file = $2
    gsub(/\//, ",", file)
    if ($1 == "A") print "L", relative($2, $3), "./" $2
    else if (file in fresh) print "F", file, "./" $2
    else print "K", folder, "./" $2
}'

# The files of `names` of the old tree in a folder of the new one: the same files where the disk
# can have it so.
keep_files() {
    put_files ln "$root/$1/" 2> /dev/null && return 0
    xargs rm -f < "$work/names" && put_files 'cp -p' "$root/$1/"
}

# Runs a command over the files of `names` of the old tree, with a folder as its last argument.
put_files() {
    (cd "$old" && xargs -n 100 sh -c 'to=$1; shift; exec '"$1"' "$@" "$to"' sh "$2" < "$work/names")
}

# The tables that the tree is to have: those of FROM whose names are no zone's.
wanted_tables() {
    for table in $TABLES; do
        if [ -f "$tables/$table" ] && ! grep -q "^[ZA]$TAB${table}[/$TAB]" "$work/state"; then
            echo "$table"
        fi
    done
}

copy_tables() {
    for table in $(wanted_tables); do
        cp "$tables/$table" "$root/$table" || return 1
    done
}

same_tables() {
    [ -n "$tables" ] || return 0
    wanted=" $(wanted_tables | tr '\n' ' ')"
    for table in $TABLES; do
        case $wanted in
            *" $table "*) cmp -s "$tables/$table" "$link/$table" || return 1 ;;
            *)
                grep -q "^[ZA]$TAB${table}[/$TAB]" "$work/state" || [ ! -e "$link/$table" ] ||
                    return 1 ;;
        esac
    done
}

# Renames DIR over to a tree: before it DIR leads to the old one, after it to the new one.
change_over() {
    if ! ln -s "${trees##*/}/$number/zoneinfo" "$trees/link" ||
        ! mv -fT "$trees/link" "$link" || ! sync "${trees%/*}"; then
        fail "$link: cannot be changed over"
    fi
}

# ---- servers of a domain

# Writes the lines of an answer of DNS: the records of a type, by dig or drill.
look_up() {
    host=$dns port=''
    case $dns in
        \[*]:*) port=${dns##*:} host=${dns%:*} ;;
        *:*:*) ;;
        *:*) port=${dns##*:} host=${dns%:*} ;;
    esac
    host=${host#\[}
    host=${host%]}
    set -- "$1" "$2" ${port:+-p "$port"} ${host:+"@$host"}
    if command -v dig > /dev/null 2>&1; then
        dig +noall +comments +answer +time=3 +tries=2 "$@" > "$work/dns" 2>&1
    elif command -v drill > /dev/null 2>&1; then
        drill "$@" > "$work/dns" 2>&1
    else
        fail "--domain needs dig (package bind9-dnsutils) or drill (package ldnsutils)"
    fi
    grep -Eq '(status|rcode): (NOERROR|NXDOMAIN)' "$work/dns" ||
        fail "$domain: DNS gives no answer for $1 $2"
    awk -v type="$2" '/^;; [A-Z]+ SECTION:/ { answer = $2 == "ANSWER" }
        answer && !/^;/ && $4 == type {
            for (at = 1; at <= 4; at++) sub(/^[^ \t]+[ \t]+/, "")
            print
        }' "$work/dns"
}

# The servers of a domain as lines: URL and context path, or `-` where the well-known address says
# it. They are by priority, and at random by weight (RFC 2782); the server of the current tree is
# the first of its priority.
find_servers() {
    used=$(sed -n "s/^url$TAB//p" "$trees/$current/state" 2> /dev/null)
    seed=$(od -An -N3 -tu4 /dev/urandom | tr -d ' ')
    absent=''
    for scheme in https http; do
        service=_timezones._tcp.$domain
        [ $scheme = https ] || service=_timezone._tcp.$domain
        look_up "$service" SRV > "$work/records" || exit 1
        if grep -Eq '^[0-9]+ [0-9]+ [0-9]+ \.$' "$work/records"; then
            absent=yes
            continue
        fi
        [ -s "$work/records" ] || continue
        look_up "$service" TXT > "$work/texts" || exit 1
        path=$(awk "$TEXT_PATH" "$work/texts")
        awk -v scheme=$scheme -v path="${path:--}" -v used="$used" -v seed="$seed" \
            "$BY_WEIGHT" "$work/records"
        return 0
    done
    [ -z "$absent" ] || fail "$domain: its DNS records say that it has no server"
    printf 'https://%s\t-\n' "$domain"
}

# The value of the first `path=` among the strings of TXT records (RFC 6763, section 6).
TEXT_PATH='
{
    while (match($0, /"([^"\\]|\\.)*"/)) {
        text = substr($0, RSTART + 1, RLENGTH - 2)
        $0 = substr($0, RSTART + RLENGTH)
        if (tolower(substr(text, 1, 5)) == "path=") { print substr(text, 6); exit }
    }
}'

BY_WEIGHT='
BEGIN { srand(seed) }
NF == 4 && $3 > 0 {
    host = $4
    sub(/\.$/, "", host)
    if (host !~ /^[A-Za-z0-9_-][A-Za-z0-9._-]*$/) next
    priority[++count] = $1 + 0
    weight[count] = $2 + 0
    url[count] = scheme "://" host ($3 == (scheme == "https" ? 443 : 80) ? "" : ":" $3)
    left[count]
}
# The next of a priority: running sums of the weights, and a number from 0 to their sum.
function choose(lowest,   at, sum, number, pass) {
    for (at = 1; at <= count; at++)
        if ((at in left) && priority[at] == lowest) {
            if (url[at] == used) return at
            sum += weight[at]
        }
    number = int(rand() * (sum + 1))
    sum = 0
    for (pass = 0; pass < 2; pass++)
        for (at = 1; at <= count; at++)
            if ((at in left) && priority[at] == lowest && (weight[at] == 0) == (pass == 0)) {
                sum += weight[at]
                if (sum >= number) return at
            }
}
END {
    for (rest = count; rest > 0; rest--) {
        lowest = -1
        for (at = 1; at <= count; at++)
            if ((at in left) && (lowest < 0 || priority[at] < lowest)) lowest = priority[at]
        at = choose(lowest)
        delete left[at]
        print url[at] "\t" path
    }
}'

# ---- the run

# Brings DIR to what a server has, and prints the line that says so.
follow() {
    rm -rf "$work"
    mkdir "$work" || fail "$work: cannot be made"
    read_state "$1"
    held_token=$token
    if [ "$2" = - ]; then
        find_context "$1"
    else
        context=$1/${2#/}
        context=${context%/}
        check_url "$context"
    fi
    catch_up
    sort "$work/held" > "$work/held.sorted"
    sort "$work/state" > "$work/state.sorted"
    if [ -n "$held_token" ] && cmp -s "$work/held.sorted" "$work/state.sorted" && same_tables; then
        if [ "$token" = "$held_token" ]; then
            printf '%s: %s, nothing changed\n' "$shown" "$token"
        else
            write_state "$1" "$trees/$current/state"
            printf '%s: %s, no zone changed\n' "$shown" "$token"
        fi
        return 0
    fi
    make_tree "$1"
    change_over
    printf '%s: %s, %s zones, %s names, %s asked for\n' "$shown" "$token" \
        "$(grep -c "^Z$TAB" "$work/state")" "$(wc -l < "$work/state" | tr -d ' ')" "$gets"
}

# Tries the servers of a domain, one after another, until one answers as it should.
follow_domain() {
    mkdir "$work" || fail "$work: cannot be made"
    servers=$(find_servers) || exit 1
    [ -n "$servers" ] || fail "$domain: its DNS records name no server that can be used"
    printf '%s\n' "$servers" | {
        tried=1
        while IFS=$TAB read -r server path_of_server; do
            if (follow "$server" "$path_of_server" < /dev/null); then
                tried=0
                break
            fi
        done
        exit $tried
    }
}

main() {
    shown=''
    for word in "$@"; do shown=$word; done
    read_options "$@"
    find_client
    [ -n "$domain" ] || check_url "${given%/}"
    find_current
    take_lock
    trap at_exit EXIT
    trap 'exit 130' INT
    trap 'exit 143' TERM HUP
    rm -rf "$work"
    if ! mkdir "$work" || ! ln -s none "$work/x" || ! ln -s none "$work/y"; then
        fail "$work: cannot be written"
    fi
    mv -fT "$work/x" "$work/y" 2> /dev/null ||
        fail "mv has no -T here: coreutils, or busybox 1.34 or newer, is needed"
    find_current
    clean
    if [ -n "$domain" ]; then
        follow_domain
    else
        (follow "$given" -)
    fi
    status=$?
    find_current
    clean
    return $status
}

main "$@"
