# What demo.sh and bench.sh share: a real server on files in a temporary folder, and the program. It is read by
# them, and isn't run by itself.
PORT=3306
# The longest message of the server that mydumper reads, in bytes.
LIMIT=67108864

top=$(cd "$(dirname "${BASH_SOURCE[0]}")" && pwd) || exit 1
folder=
server=
policy=

say() {
    printf -- '-- %s\n' "$*"
}

fail() {
    printf '%s: %s\n' "$(basename "$0" .sh)" "$*" >&2
    exit 1
}

# Whatever ends the script: the server is ended by its process id, and the temporary folder goes.
end() {
    local status=$?
    trap - EXIT
    if [ -n "$server" ]; then
        kill "$server" 2>/dev/null
        wait "$server" 2>/dev/null
    fi
    [ -n "$policy" ] && rm -f "$policy"
    [ -n "$folder" ] && rm -rf "$folder"
    exit "$status"
}
trap end EXIT
trap 'exit 129' HUP
trap 'exit 130' INT
trap 'exit 143' TERM

# A server that is at hand: MariaDB's.
find_server() {
    PATH=$PATH:/usr/sbin:/usr/local/sbin command -v mariadbd
}

# Installs Debian's server. No service is started: a policy says so while the packages are set up.
install_server() {
    command -v apt-get >/dev/null || fail "no mariadbd is at hand, and no apt-get to install it with"
    [ "$(id -u)" -eq 0 ] || fail "no mariadbd is at hand; install mariadb-server, or run this as root once"
    say "installing mariadb-server"
    if [ ! -e /usr/sbin/policy-rc.d ]; then
        policy=/usr/sbin/policy-rc.d
        { printf '#!/bin/sh\nexit 101\n' >"$policy" && chmod 755 "$policy"; } || fail "cannot write $policy"
    else
        /usr/sbin/policy-rc.d mariadb start >/dev/null 2>&1
        [ $? -eq 101 ] || fail "/usr/sbin/policy-rc.d lets services start; install mariadb-server by hand"
    fi
    export DEBIAN_FRONTEND=noninteractive
    {
        apt-get update && apt-get install -y --no-install-recommends mariadb-server
    } >"$folder/install.log" 2>&1 </dev/null || {
        tail -n 20 "$folder/install.log" >&2
        fail "mariadb-server was not installed"
    }
    [ -n "$policy" ] && rm -f "$policy"
    policy=
}

# Proves and builds the program, the crates below it side by side. `rt run` runs it too: without words it
# ends with status 2.
build_program() {
    say "proving and building mydumper (from nothing it takes a quarter of an hour)"
    rm -f "$top/crates/mydumper/out/mydumper"
    {
        (cd "$top" && rt all check --jobs "$(nproc)")
        (cd "$top/crates/mydumper" && rt run)
    } >"$folder/build.log" 2>&1 </dev/null
    program=$top/crates/mydumper/out/mydumper
    [ -x "$program" ] || {
        tail -n 20 "$folder/build.log" >&2
        fail "mydumper was not built"
    }
}

# The server's own client, as its root, over its socket.
client() {
    mariadb --no-defaults --default-character-set=utf8mb4 --socket="$folder/socket" --user=root "$@"
}

# mydumper connects to this port and no other.
check_port() {
    if (exec 3<>"/dev/tcp/127.0.0.1/$PORT") 2>/dev/null; then
        fail "port $PORT of 127.0.0.1 is taken; mydumper connects there, so end what listens on it first"
    fi
}

start_server() {
    say "starting $("$mariadbd" --no-defaults --version | sed 's/^[^ ]* *//')"
    check_port
    local user
    user=$(id -un)
    mariadb-install-db --no-defaults --datadir="$folder/data" --user="$user" \
        --auth-root-authentication-method=normal --skip-test-db >"$folder/make.log" 2>&1 </dev/null || {
        tail -n 20 "$folder/make.log" >&2
        fail "the server's files were not made"
    }
    "$mariadbd" --no-defaults --datadir="$folder/data" --socket="$folder/socket" --port="$PORT" \
        --bind-address=127.0.0.1 --max-allowed-packet="$LIMIT" --pid-file="$folder/pid" --user="$user" --skip-name-resolve \
        >"$folder/server.log" 2>&1 </dev/null &
    server=$!
    for _ in $(seq 120); do
        client -e 'SELECT 1' >/dev/null 2>&1 && return
        kill -0 "$server" 2>/dev/null || break
        sleep 0.5
    done
    tail -n 20 "$folder/server.log" >&2
    fail "the server did not start"
}

# Makes the temporary folder, and finds the server and the toolchain.
prepare() {
    folder=$(mktemp -d "${TMPDIR:-/tmp}/mydumper-try.XXXXXX") || fail "no temporary folder"
    check_port
    mariadbd=$(find_server) || {
        install_server
        mariadbd=$(find_server) || fail "mariadb-server was installed, and there is no mariadbd"
    }
    command -v rt >/dev/null || fail "the toolchain's command rt is not at hand"
}
