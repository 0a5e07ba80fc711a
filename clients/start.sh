# For the scripts beside it, which read it: starts programs in $folder, a folder of its own, and ends them with the script.
set -eu
clients="$(cd "$(dirname "${BASH_SOURCE[0]}")" && pwd)"
folder="$(mktemp -d)"
started=
trap '[ -z "$started" ] || kill $started 2> /dev/null || true; rm -rf "$folder"' EXIT

# A port of 127.0.0.1 that is free.
free_port() {
    /usr/bin/python3 -c 'import socket; it = socket.socket(); it.bind(("127.0.0.1", 0)); print(it.getsockname()[1])'
}

# start_program PROGRAM WORD..: starts the program as a server of four users on the port $port, with these words besides, and waits until it
# says that it listens. MODE and THREADS set --mode, which is `serve` without, and --threads.
start_program() {
    local line= errors
    port="$(free_port)"
    printf '%s\n' 'server example.org' 'alice A1 tok_a1' 'alice A2 tok_a2' 'bob B1 tok_b1' \
        'carol C1 tok_c1' 'dave D1 tok_d1' > "$folder/users"
    exec {errors}< <(exec "$1" --users "$folder/users" --mode "${MODE:-serve}" ${THREADS:+--threads "$THREADS"} --listen "127.0.0.1:$port" "${@:2}" 2>&1 > /dev/null < /dev/null)
    started="$started $!"
    read -r -t 10 line <&"$errors" || true
    if [[ "$line" != "mxsync: listening on 127.0.0.1:$port"* ]]; then
        echo "the program didn't listen: ${line:-nothing said}"
        exit 1
    fi
}
