#!/bin/sh
# Starts two issuers' hosts, has the switch ask them over named pipes, and compares the responses with those of the simulated issuers.
#
#     try.sh PROGRAM        the path of cardswitch
#
# With socat each host listens on the loopback, and connect.py carries the frames. Without it the hosts are at the pipes themselves.
program=$(realpath "$1") || exit 2
here=$(cd "$(dirname "$0")" && pwd)
room=$(mktemp -d) || exit 1
trap 'kill $hosts 2> /dev/null; rm -rf "$room"' EXIT
cd "$room" || exit 1

hosts=
start() {
    name=$1
    port=$2
    mkfifo "$name.to" "$name.from"
    if command -v socat > /dev/null; then
        socat "TCP-LISTEN:$port,bind=127.0.0.1,reuseaddr" "EXEC:python3 $here/host.py" &
        hosts="$hosts $!"
        python3 "$here/connect.py" --retry 0.1 "127.0.0.1:$port" "$name.to" "$name.from" &
    else
        python3 "$here/host.py" < "$name.to" > "$name.from" &
    fi
    hosts="$hosts $!"
}

# Ports of its own, so that it may run twice at once.
port=$((10000 + $$ % 10000 * 2))
start alpha $port
start beta $((port + 1))
# A request that comes before its host is there is stood in for. So each host answers an echo test first. (Opening one end of a named
# pipe waits for the other.)
exec 6> alpha.to 7< alpha.from 8> beta.to 9< beta.from
echo_test=00550800822000000000000004000000000000000102030405000001301
printf %s $echo_test >&6 && head -c 61 <&7 > /dev/null || exit
printf %s $echo_test >&8 && head -c 61 <&9 > /dev/null || exit
"$program" run --flow "$here/../switch.toml" --config "$here/config.toml" < "$here/../requests.frames" > responses.frames || exit
cmp responses.frames "$here/../responses.frames" && echo "the same responses"
