#!/bin/sh
# Weighs the vehicle that is on the bridge, or voids the open weighing of a plate, and prints the ticket or slip.
#
# Usage: weigh.sh [--tare KG] first|second|single|void PLATE [KEY]
#
# A weighing has a key of its own. If none is given, this program makes one. It sends the request again with this key until it is answered, for
# at most 30 seconds, or WEIGHBRIDGE_SECONDS. So the weighing is stored once, however often the connection is cut, and no other vehicle is
# weighed in its place. If this program is stopped earlier, call it again with the key that it printed on standard error, as long as the vehicle
# is on the bridge.
#
# With --tare, a single weighing has this tare in kg. Only the counter sets it, weighs, and clears it again in one request. The office refuses it.
#
# WEIGHBRIDGE is the address of the office or the counter: http or https, a host, and optionally a port and a path. If it isn't set, the copy of
# the package asks the counter at http://127.0.0.1:882. Without the counter's package it asks the office at http://127.0.0.1:880. Any other
# copy asks http://127.0.0.1:8080. No proxy is used. With https the certificate must be trusted by the system, or by the file that
# SSL_CERT_FILE names. Needs curl.
#
# Only the office's own judgement settles the request: a slip or ticket of this plate, a refusal, or `fault 422 bad_field`. Any other response
# doesn't, because it says nothing of an earlier attempt. Examples are nginx's 401 or 429, and a `counter ..` of the counter.
#
# If the time is over, this program waits for six seconds, because the office may still store a request that has waited for less than five.
# Then it asks the counter whether the journal has the key, which stores nothing and takes up to 40 seconds. Only the counter answers this. If
# the journal has the key, the program sends the request once more, and gets the stored text, whatever is on the bridge.
#
# The status is one of these:
#
# - 0: The weighing is stored, and its text was printed.
# - 1: It was refused, nothing was sent, or the counter says that the journal has no such key. The reason is on standard error.
# - 2: The arguments, WEIGHBRIDGE or WEIGHBRIDGE_SECONDS are wrong.
# - 3: It isn't known whether the weighing is stored, because no answer came in time, this program was stopped, or the entry under its key is
#   damaged. Or it is stored, but its text didn't come. Standard error says which.
#
# Since version 2.1.1: --tare, no proxy, and only an address of the form above. The copy of the package asks the package's own ports. Wrong addresses end with status 2. A 201 without a slip or ticket
# doesn't mean that the weighing is stored. This program asks the counter about the key, and status 1 also means that nothing was sent or stored.
set -eu
LC_ALL=C # the words of curl, and the letters of an address
export LC_ALL
has_tare=no tare=
if [ "${1-}" = --tare ] && [ $# -gt 1 ]; then
    has_tare=yes tare=$2
    shift 2
fi
case "${1-} $#" in
    first\ [23] | second\ [23] | single\ [23] | void\ [23]) ;;
    *)
        echo "usage: weigh.sh [--tare KG] first|second|single|void PLATE [KEY]" >&2
        exit 2
        ;;
esac
kind=$1 plate=$2 given=${3-}
if [ "$has_tare" = yes ]; then
    case "$tare" in
        '' | 0* | *[!0-9]* | ????????*)
            echo "--tare: $tare is no tare, because it isn't a whole number of kg from 1 to 9999999" >&2
            exit 2
            ;;
    esac
    if [ "$kind" != single ]; then
        echo "--tare: $kind takes no tare; only single does" >&2
        exit 2
    fi
fi
folder=$(dirname "$(readlink -f "$0")")
key=${given:-$(od -A n -N 10 -t x1 /dev/urandom | tr -d ' \n')}
target=weighings
[ "$kind" != void ] || target=voids
again="$0 ${tare:+--tare $tare }$kind $plate $key"

# Whether this is an address that both clients take.
is_address() {
    case "$1" in *[!][A-Za-z0-9:/._~%-]*) return 1 ;; esac
    host='([A-Za-z0-9_-]{1,63}(\.[A-Za-z0-9_-]{1,63})*\.?|\[[0-9A-Fa-f:.]+\])'
    printf '%s\n' "$1" | grep -Eqx "https?://$host(:[1-9][0-9]{0,4})?(/[A-Za-z0-9._~%-]+)*/?" || return 1
    port=$(printf '%s\n' "$1" | sed -nE 's|^[a-z]*://[^/]*:([0-9]+)(/.*)?$|\1|p')
    [ "${port:-80}" -le 65535 ]
}

# Prints the address that is asked if none is given.
own_address() {
    if [ "$folder" != "/usr/share/weighbridge/clients" ]; then
        echo "http://127.0.0.1:8080"
    elif [ -e "/usr/bin/weighbridge-counter" ]; then
        echo "http://127.0.0.1:882"
    else
        echo "http://127.0.0.1:880"
    fi
}

address=${WEIGHBRIDGE:-$(own_address)}
if ! is_address "$address"; then
    echo "WEIGHBRIDGE: $address is no address of an office, because it isn't http:// or https:// with a host, and at most a port and a path; set it as in http://127.0.0.1:8080" >&2
    exit 2
fi
address=${address%/}
seconds=${WEIGHBRIDGE_SECONDS:-30}
case "$seconds" in
    0* | *[!0-9]* | ?????*)
        echo "WEIGHBRIDGE_SECONDS: $seconds is no time, because it isn't a whole number from 1 to 9999; set it as in 30" >&2
        exit 2
        ;;
esac
answer=$(mktemp) log=$(mktemp)
trap 'rm -f "$answer" "$log"' EXIT
trap 'exit 3' INT TERM
end_of_head=$(printf '^\r$')
is_sent=no
end=$(($(date +%s) + seconds))

# Sends a request once. Its arguments are the most seconds, the target, and the form for curl. Sets `status`, which is 000 if no whole answer came,
# `text`, and `why` the answer settles nothing. Sets `is_sent` to yes if the request may have reached the office. curl accepts a head that was cut.
ask() {
    within=$1 to=$2 ended=0 text=
    shift 2
    # if CURL_CA_BUNDLE is set, curl would ignore SSL_CERT_FILE
    numbers=$(curl --noproxy '*' --globoff --path-as-is --silent --verbose --http1.1 --header 'Expect:' --max-time "$within" --include --output "$answer" \
        ${SSL_CERT_FILE:+--cacert "$SSL_CERT_FILE"} --write-out '%{http_code} %{size_request}' "$@" "$address/$to" 2>"$log") || ended=$?
    status=${numbers% *} size=${numbers#* }
    if [ "$ended" != 0 ] || ! grep -q "$end_of_head" "$answer"; then
        status=000
        [ "$size" = 0 ] || is_sent=yes
        why_no_answer
        return
    fi
    text=$(sed "1,/$end_of_head/d" "$answer")
    case "$text" in
        'counter other_host' | 'counter other_site') ;;
        *) sed "/$end_of_head/q" "$answer" | grep -qi '^X-Counter: *not_sent' || is_sent=yes ;;
    esac
    reason
}

# Sends the weighing once. The argument is the most seconds.
weigh() {
    ask "$1" "$target" --data-urlencode "key=$key" --data-urlencode "plate=$plate" --data-urlencode "kind=$kind" ${tare:+--data-urlencode "tare=$tare"}
}

# Sets why no whole answer came, by what curl says of it.
why_no_answer() {
    cause=$(sed -n 's/^.*SSL certificate problem: //p' "$log" | head -n 1)
    if grep -q 'no alternative certificate subject name\|does not match target host name' "$log"; then
        cause='it is of another host'
    elif [ "$ended" = 77 ]; then
        cause="the file of authorities can't be read"
    fi
    if [ "$size" != 0 ]; then
        why='no whole answer came.'
    elif [ -n "$cause" ]; then
        why="its certificate isn't trusted: $cause. Name its authority in SSL_CERT_FILE."
    elif [ "$ended" = 35 ]; then
        why='TLS failed: does the address speak https?'
    elif grep -q 'failed: Connection refused' "$log"; then
        why='connection refused: is the service running?'
    else
        why="it can't be reached: check the address and the network."
    fi
}

# Sets the words for the operator about an answer of the office or the counter that isn't a slip or ticket.
reason() {
    begin=$(printf '%s\n' "$text" | sed -nE -e '1s/^(refused|fault) ([0-9]+) .*/\2 /p' -e '1s/^(counter [a-z_]+)$/\1 /p')
    if [ -z "$begin" ]; then
        why="its answer with status $status isn't one of the office."
    else
        why=$(grep "^$begin" "$folder/refusals.txt" || printf '%s\n' "$text" | head -n 1)
    fi
}

# Whether this is the slip or ticket of the weighing.
is_text() {
    paper=TICKET
    case "$kind" in first | void) paper=SLIP ;; esac
    [ "$status" = 201 ] && printf '%s\n' "$text" | sed -n 1p | grep -Eqx "WEIGHING $paper [1-9][0-9]*" &&
        [ "$(printf '%s\n' "$text" | sed -n 2p)" = "PLATE $plate" ]
}

# Whether the office refused the request, so that each further attempt is pointless.
is_refusal() {
    first=$(printf '%s\n' "$text" | sed -n 1p)
    case "$status" in
        409 | 410) printf '%s\n' "$first" | grep -Eqx 'refused [0-9]+ [a-z_]+' ;;
        422) [ "$first" = 'fault 422 bad_field' ] ;;
        *) false ;;
    esac
}

end_refused() {
    printf '%s\n' "$why" >&2
    case "$text" in
        refused\ 17\ *)
            echo "it isn't known whether the weighing is stored" >&2
            echo "look for the key $key in the office's journal.csv, and call the operator" >&2
            exit 3
            ;;
    esac
    exit 1
}

# Prints the text, or the reason of a refusal, and ends. Does nothing if the office gave no judgement.
end_if_settled() {
    if is_text; then
        printf '%s\n' "$text"
        exit 0
    elif is_refusal; then
        end_refused
    fi
}

# Ends without a judgement of the office, by what is known of the key. The argument is yes if somebody is at the address.
end_unsettled() {
    if [ "$is_sent" = no ] && [ -z "$given" ]; then
        echo 'nothing was sent to the office, so the weighing is not stored' >&2
        exit 1
    fi
    if [ "$1" = yes ]; then
        echo "no answer for $seconds s; looking for the key in the journal" >&2
        sleep 6
        ask 40 "keys/$key"
        case "$status $(printf '%s' "$text" | tr -d ' \t\r\n')" in
            '200 {"found":true}')
                weigh 10
                end_if_settled
                echo "the weighing is stored, but its text didn't come" >&2
                echo "to print it: $again" >&2
                exit 3
                ;;
            '200 {"found":false}')
                purged=${given:+, unless a purge has removed it}
                echo "the weighing is not stored: the journal has no key $key$purged" >&2
                exit 1
                ;;
        esac
    fi
    echo "no answer for $seconds s, so it isn't known whether the weighing is stored" >&2
    echo "if the vehicle is still on the bridge: $again" >&2
    echo "if it has left, don't: look for the key $key in the office's journal.csv" >&2
    exit 3
}

echo "key $key" >&2
while :; do
    left=$((end - $(date +%s)))
    weigh $((left > 1 ? left : 1))
    end_if_settled
    case "$text" in
        'counter other_host' | 'counter other_site')
            echo "$address: $why" >&2
            end_unsettled no
            ;;
    esac
    if [ "$(date +%s)" -ge "$end" ]; then
        echo "$address: $why" >&2
        is_reached=yes
        [ "$status $size" != '000 0' ] || is_reached=no
        end_unsettled "$is_reached"
    fi
    echo "$address: $why Asking again with the same key" >&2
    sleep 1
done
