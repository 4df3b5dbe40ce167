#!/bin/sh
# A rate limiter for shell scripts. Each user may make ten calls at once, and one more every 100 milliseconds.
#
#     limiter.sh BASE USER     status 0: admitted; 1: refused, and it prints the number of milliseconds to wait; 2: a fault
#
# Each call runs dbm once. dbm waits for other commands on BASE, reads one page, changes one record and saves it. The variable DBM has the
# path of dbm; if it is not set, dbm is looked up on the PATH.
#
# Users choose their names. If the names were the keys, users could choose names whose hashes agree, and BASE.pag would become as long as
# possible. So a key is the hash of a name with a secret. The first call makes the secret in BASE.secret. If you delete BASE.secret, all
# users start with full buckets.
set -u
bucket=$(dirname -- "$0")/../c/token_bucket.bin
secret=$1.secret
if [ ! -s "$secret" ]; then
    # The link is made atomically, so concurrent callers use the same secret.
    new=$(mktemp -- "$secret.XXXXXX") && dd if=/dev/urandom of="$new" bs=32 count=1 conv=fsync 2> /dev/null && ln -- "$new" "$secret" 2> /dev/null
    rm -f -- "${new:-}"
fi
if [ ! -s "$secret" ] || [ ! -r "$secret" ]; then
    echo "limiter.sh: $secret cannot be made or read" >&2
    exit 2
fi
# The name of a user may be any text, since none of it is parsed as an option or a number.
key=$({ cat -- "$secret" && printf %s "$2"; } | sha256sum)
key=$(printf %.32s "$key")
said=$("${DBM:-dbm}" run --quick --image --text -- "$1" "hex:$key" "$bucket" u64:100,u64:10,u64:1 16 now-ms)
case $said in
    "ran 1 "*) exit 0 ;;
    "ran 0 "*) echo "${said#ran 0 }" && exit 1 ;;
    *) echo "limiter.sh: ${said:-no answer}" >&2 && exit 2 ;;
esac
