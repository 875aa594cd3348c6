# To be sourced by a bash script, with the repository as its folder: three network namespaces joined by a
# bridge, 10.99.0.1 to 10.99.0.3, with a temporary folder $scratch. All of it goes when the script ends, and
# so do the processes started by `start`.

places=3
name=sp$$
started=()
scratch=

fail() {
    echo "${0##*/}: $*" >&2
    exit 1
}

# need COMMAND PACKAGE: ends the script where the command is missing.
need() {
    command -v "$1" > /dev/null || fail "$1 is missing; on Debian: apt-get install $2"
}

# An address of a place, 1 to 3.
address() {
    echo "10.99.0.$1"
}

net_up() {
    local place

    [ "$(id -u)" -eq 0 ] || fail "network namespaces need root"
    need ip iproute2
    trap net_down EXIT
    trap 'exit 130' INT
    trap 'exit 143' TERM HUP
    scratch=$(mktemp -d) || fail "no temporary folder"
    ip link add "${name}b" type bridge || fail "no bridge can be made: has the kernel bridges?"
    ip link set "${name}b" up
    for ((place = 1; place <= places; place++)); do
        ip netns add "$name-$place" &&
            ip link add "${name}v$place" type veth peer name eth0 netns "$name-$place" &&
            ip link set "${name}v$place" master "${name}b" up &&
            ip -n "$name-$place" addr add "$(address "$place")/24" dev eth0 &&
            ip -n "$name-$place" link set eth0 up &&
            ip -n "$name-$place" link set lo up || fail "namespace $place cannot be made"
    done
}

# start PLACE COMMAND...: runs it in the background in that place's namespace; its process is $!. The input is
# named, for bash would hand it none.
start() {
    ip netns exec "$name-$1" "${@:2}" <&0 &
    started+=($!)
}

net_down() {
    local place process

    for process in "${started[@]}"; do
        kill "$process" 2> /dev/null
    done
    for process in "${started[@]}"; do
        wait "$process" 2> /dev/null
    done
    for ((place = 1; place <= places; place++)); do
        ip netns del "$name-$place" 2> /dev/null
    done
    ip link del "${name}b" 2> /dev/null
    rm -rf "$scratch"
}
