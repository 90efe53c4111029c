#!/bin/sh
# Three machines on one: a cluster as docs/CLUSTER.md sets it up, each of whose machines is killed in turn, and nothing is lost:
# `examples/cluster.sh [PROGRAM]`. It prints examples/cluster.out. It wants etcd, openssl and python3; where one lacks it ends with 77.
set -eu

here=$(cd "$(dirname "$0")" && pwd)
. "$here/program.sh"
ROMP801=$program
export ROMP801
cluster=$here/../tools/cluster
for wanted in etcd openssl python3; do
    command -v "$wanted" >/dev/null || { echo "no $wanted" >&2 && exit 77; }
done
folder=$(mktemp -d)
base=$((26000 + $$ % 2000))
engine=https://127.0.0.1:$((base + 1)),https://127.0.0.1:$((base + 2)),https://127.0.0.1:$((base + 3))
nodes=127.0.0.1:$((base + 21)),127.0.0.1:$((base + 22)),127.0.0.1:$((base + 23))
cd "$folder"

say() { printf -- '-- %s\n' "$*"; }

leave() {
    for pid in *.pid; do [ ! -f "$pid" ] || kill -9 "$(cat "$pid")" 2>/dev/null || true; done
    rm -rf "$folder"
}
trap leave EXIT

# certificate NAME: a folder NAME with ca.pem, cert.pem and key.pem, for 127.0.0.1
certificate() {
    mkdir "$1"
    printf 'subjectAltName=IP:127.0.0.1\nextendedKeyUsage=serverAuth,clientAuth\n' >"$1/names"
    openssl req -newkey ec -pkeyopt ec_paramgen_curve:prime256v1 -nodes -subj "/CN=$1" -keyout "$1/key.pem" -out "$1/asked" 2>>said
    openssl x509 -req -in "$1/asked" -CA ca.pem -CAkey ca.key -CAcreateserial -days 3650 -extfile "$1/names" -out "$1/cert.pem" 2>>said
    cp ca.pem "$1/ca.pem"
}

# member K: the member of etcd of machine K
member() {
    peers=e1=https://127.0.0.1:$((base + 11)),e2=https://127.0.0.1:$((base + 12)),e3=https://127.0.0.1:$((base + 13))
    etcd --name "e$1" --data-dir "e$1" --initial-cluster "$peers" --initial-cluster-state new \
        --listen-client-urls "https://127.0.0.1:$((base + $1))" --advertise-client-urls "https://127.0.0.1:$((base + $1))" \
        --listen-peer-urls "https://127.0.0.1:$((base + 10 + $1))" --initial-advertise-peer-urls "https://127.0.0.1:$((base + 10 + $1))" \
        --cert-file "m$1/cert.pem" --key-file "m$1/key.pem" --trusted-ca-file ca.pem --client-cert-auth \
        --peer-cert-file "m$1/cert.pem" --peer-key-file "m$1/key.pem" --peer-trusted-ca-file ca.pem --peer-client-cert-auth \
        --auto-compaction-mode revision --auto-compaction-retention 10000 --log-level error >>"e$1.log" 2>&1 &
    echo $! >"e$1.pid"
}

# node K: the node of machine K
node() {
    "$cluster" node --engine "$engine" --tls "m$1" --secret secret --name "n$1" --folder "f$1" \
        --listen "127.0.0.1:$((base + 20 + $1))" >>"n$1.log" 2>&1 &
    echo $! >"n$1.pid"
}

# ask WORDS: a client with the secret, and without a certificate of its own
ask() {
    word=$1
    shift
    "$cluster" "$word" --nodes "$nodes" --tls client --secret secret --seconds 300 "$@"
}

say 'one hand signs the certificates of three machines; clients know a secret'
openssl req -x509 -newkey ec -pkeyopt ec_paramgen_curve:prime256v1 -nodes -days 3650 -subj /CN=cluster -keyout ca.key -out ca.pem 2>>said
for machine in 1 2 3; do certificate "m$machine"; done
mkdir client && cp ca.pem client/ca.pem
openssl rand -hex 32 >secret

say 'three members of etcd, and a store'
for machine in 1 2 3; do member "$machine"; done
"$ROMP801" new2 bank 131072 1 1f 2 1f
for attempt in $(seq 100); do
    "$cluster" make --engine "$engine" --tls m1 --programs "$here/four.job" bank=bank 2>>said && break
    sleep 0.2
done

say 'three nodes'
for machine in 1 2 3; do node "$machine"; done
ask do bank 'deposit 100 0' 'move 30 0 256'

say 'a client that knows no secret, and one that trusts nobody'
"$cluster" do --nodes "$nodes" --tls client --seconds 3 bank 'deposit 1 0' 2>&1 | tail -n 1
"$cluster" do --nodes "$nodes" --seconds 3 bank 'deposit 1 0' >>said 2>&1 || echo "status $?"

for machine in 1 2 3; do
    say "machine $machine is killed, and begun again behind a transfer"
    kill -9 "$(cat "e$machine.pid")" "$(cat "n$machine.pid")"
    ask do bank 'move 10 0 256'
    member "$machine"
    node "$machine"
    for attempt in $(seq 100); do
        "$cluster" stat --nodes "127.0.0.1:$((base + 20 + machine))" --tls client --secret secret 2>>said | grep -q 'bank at [1-9]' && break
        sleep 0.2
    done
done

say 'nothing is lost'
ask show bank 1 0 4
ask show bank 1 256 4
"$cluster" audit --engine "$engine" --tls m1 bank
