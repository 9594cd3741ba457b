#!/bin/sh
# What two servers over Berkeley DB, which know nothing of each other, let an orphan of a crash see. x stands in the environment of the first server
# and y in that of the second, both 1, and who writes one writes the other alike. C has a transaction at each, and reads x, which locks it. The
# first server crashes and comes back with recovery: C's transaction is gone there, and its lock with it. D writes 2 to both, and commits at both.
# Then C reads y, and commits at both. A server has one object, and does line by line what it reads. No time is measured.
# bench/berkeley.sh        wants Berkeley DB 5.3 (libdb5.3-dev) and a C compiler: $CC, or cc
set -eu

room=$(mktemp -d)
trap 'kill -9 $(cat "$room"/*.pid) 2>/dev/null || true; rm -rf "$room"' EXIT

cat >"$room/server.c" <<'C'
#include <db.h>
#include <stdio.h>
#include <stdlib.h>
#include <string.h>

static DB_ENV *env;
static DB *db;
static DB_TXN *open_by[128]; // by the letter of who has it

static void must(int failed)
{
    if (failed) {
        fprintf(stderr, "%s\n", db_strerror(failed));
        exit(1);
    }
}

static int get(DB_TXN *txn, int *value)
{
    DBT key = {.data = "value", .size = 5}, found = {.data = value, .ulen = sizeof *value, .flags = DB_DBT_USERMEM};
    return db->get(db, txn, &key, &found, 0);
}

static int put(DB_TXN *txn, int value)
{
    DBT key = {.data = "value", .size = 5}, given = {.data = &value, .size = sizeof value};
    return db->put(db, txn, &key, &given, 0);
}

// server FOLDER OBJECT: the object is 1 where it is new
int main(int argc, char **argv)
{
    char who, does[16];
    int value;
    const char *object = argv[2];
    must(db_env_create(&env, 0));
    must(env->open(env, argv[1], DB_CREATE | DB_INIT_TXN | DB_INIT_LOCK | DB_INIT_LOG | DB_INIT_MPOOL | DB_RECOVER, 0));
    must(db_create(&db, env, 0));
    must(db->open(db, NULL, "object", NULL, DB_BTREE, DB_CREATE | DB_AUTO_COMMIT, 0));
    if (get(NULL, &value) == DB_NOTFOUND)
        must(put(NULL, 1));
    setvbuf(stdout, NULL, _IOLBF, 0);
    while (scanf(" %c %15s", &who, does) == 2) {
        DB_TXN **txn = &open_by[(int)who];
        if (strcmp(does, "writes") == 0) {
            if (scanf("%d", &value) != 1)
                return 1;
            must(put(*txn, value));
            printf("%c writes %s = %d\n", who, object, value);
        } else if (strcmp(does, "begins") == 0) {
            must(env->txn_begin(env, NULL, txn, 0));
        } else if (*txn == NULL) {
            printf("%c has no transaction at the server of %s\n", who, object);
        } else if (strcmp(does, "reads") == 0) {
            must(get(*txn, &value));
            printf("%c reads %s = %d\n", who, object, value);
        } else {
            must((*txn)->commit(*txn, 0));
            *txn = NULL;
            printf("%c has committed at the server of %s\n", who, object);
        }
    }
    return 0;
}
C
"${CC:-cc}" -O1 -o "$room/server" "$room/server.c" -ldb-5.3

# start OBJECT: starts its server, which reads what is told to it from a pipe
start() {
    mkdir -p "$room/$1"
    "$room/server" "$room/$1" "$1" <"$room/to_$1" &
    echo $! >"$room/$1.pid"
}

# tell OBJECT LINE: has its server do what the line says
tell() {
    case $1 in x) echo "$2" >&3 ;; y) echo "$2" >&4 ;; esac
    sleep 1
}

mkfifo "$room/to_x" "$room/to_y"
exec 3<>"$room/to_x" 4<>"$room/to_y"
echo "Berkeley DB $(sed -n 's/.*DB_VERSION_STRING.*Berkeley DB \([0-9.]*\).*/\1/p' /usr/include/db.h)"
start x
start y
tell x "C begins"
tell y "C begins"
tell x "C reads"

kill -9 "$(cat "$room/x.pid")"
wait "$(cat "$room/x.pid")" 2>/dev/null || true
start x
echo "the server of x has crashed, and is back"
tell x "D begins"
tell y "D begins"
tell x "D writes 2"
tell y "D writes 2"
tell x "D commits"
tell y "D commits"

tell y "C reads"
tell y "C commits"
tell x "C commits"
