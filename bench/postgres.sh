#!/bin/sh
# What two servers of PostgreSQL, which know nothing of each other, let an orphan of a crash see. x stands at the first server and y at the second,
# both 1, and who writes one writes the other alike. C has a transaction at each, and locks x as it reads it. The first server crashes and comes
# back: C's transaction is gone there, and its lock with it. D writes 2 to both, and commits at both. Then C reads y, and commits. All
# transactions are serializable. No time is measured.
# bench/postgres.sh        wants PostgreSQL's programs in $PGBIN, or where Debian has them; called by root it runs as the user postgres
set -eu

programs=${PGBIN:-$(ls -d /usr/lib/postgresql/*/bin | tail -n 1)}
room=$(mktemp -d)
trap 'for at in 1 2; do pg stop "$at"; done >/dev/null 2>&1; rm -rf "$room"' EXIT
if [ "$(id -u)" = 0 ]; then chown postgres "$room"; fi

# runs a command as a user that may run a server
as_server() {
    if [ "$(id -u)" = 0 ]; then (cd "$room" && runuser -u postgres -- "$@"); else (cd "$room" && "$@"); fi
}

# pg start SERVER, pg stop SERVER: a stop is a crash, which writes nothing more
pg() {
    as_server "$programs/pg_ctl" -s -w -D "$room/$2" -l "$room/$2.log" -m immediate \
        -o "-p 543$2 -k $room -c listen_addresses=''" "$1"
}

# sql SERVER: a session of SQL from standard input
sql() {
    as_server psql -qAt -h "$room" -p "543$1" postgres
}

for at in 1 2; do
    as_server "$programs/initdb" -A trust -D "$room/$at" >/dev/null
    pg start "$at"
done
echo "create table x as select 1 as value" | sql 1
echo "create table y as select 1 as value" | sql 2
"$programs/postgres" --version

serializable="begin isolation level serializable;"
mkfifo "$room/at_x" "$room/at_y"
sql 1 <"$room/at_x" 2>/dev/null &
sql 2 <"$room/at_y" &
exec 3>"$room/at_x" 4>"$room/at_y"
echo "$serializable select 'C reads x = ' || value from x for share;" >&3
echo "$serializable" >&4
sleep 2

pg stop 1
pg start 1
echo "the server of x has crashed, and is back"
echo "$serializable update x set value = 2; commit;" | sql 1
echo "$serializable update y set value = 2; commit;" | sql 2
echo "D has written x = 2 and y = 2, and committed at both servers"

echo "select 'C reads y = ' || value from y; commit; select 'C has committed at the server of y';" >&4
sleep 2
exec 3>&- 4>&-
