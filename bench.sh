#!/usr/bin/env bash
# Measures mydumper: starts a real server on files in a temporary folder, makes a table with hardly a byte
# to escape and one in which nearly every third byte of text has to be, dumps each over one session, and
# prints how many instructions of the processor a row took, and how many seconds the dump took by itself.
# Where the original mydumper is at hand, it dumps the same tables with one thread. The only word is the number
# of rows (100000). It needs valgrind, and takes some minutes.
set -u
. "$(dirname "${BASH_SOURCE[0]}")/server.sh" || exit 1

SCHEMA=speed
ACCOUNT=bench
rows=${1-100000}
case $rows in
'' | *[!0-9]* | 0*) fail "the number of rows is $rows" ;;
esac

make_tables() {
    say "making two tables of $rows rows"
    client <<SQL || fail "the tables were not made"
CREATE USER '$ACCOUNT'@'127.0.0.1' IDENTIFIED WITH mysql_native_password USING '';
GRANT ALL ON *.* TO '$ACCOUNT'@'127.0.0.1';
CREATE DATABASE $SCHEMA CHARACTER SET utf8mb4;
USE $SCHEMA;
CREATE TABLE plain (id int NOT NULL, k int NOT NULL, c char(120) NOT NULL, pad char(60) NOT NULL, PRIMARY KEY (id));
INSERT INTO plain SELECT seq, CRC32(seq) MOD $rows, LEFT(CONCAT(SHA2(seq, 256), '-', SHA2(seq + 1, 256)), 119),
    LEFT(SHA2(seq, 512), 59) FROM seq_1_to_$rows;
CREATE TABLE dense (id int NOT NULL, a varchar(80), b varchar(80), c varchar(160), PRIMARY KEY (id));
INSERT INTO dense SELECT seq, CONCAT('it\'s "', seq, '"\n', LEFT(SHA2(seq, 256), 24), ' größe\\\\', '\''),
    CONCAT(REPEAT('\'"\\\\\n', 5), 'naïve 漢字 ', REPEAT('x\'', 10)),
    CONCAT('line one\nline \\\\ two\r\n', REPEAT('a"', 20), LEFT(SHA2(seq, 512), 40)) FROM seq_1_to_$rows;
SQL
}

# The instructions of a dump, divided by the rows.
instructions_of() {
    local log=$folder/callgrind.log
    valgrind --tool=callgrind --callgrind-out-file=/dev/null "$@" >"$log" 2>&1 || {
        tail -n 5 "$log" >&2
        fail "the dump failed"
    }
    echo $(($(sed -n 's/.*Collected *: *//p' "$log") / rows))
}

# The seconds of a dump.
seconds_of() {
    local TIMEFORMAT=%R
    { time "$@" >/dev/null 2>&1; } 2>&1
}

# Dumps the table of this name twice, by the program of this name.
measure() {
    local name=$1 table=$2 count taken
    shift 2
    rm -rf "$folder/dump"
    count=$(instructions_of "$@") || exit 1
    rm -rf "$folder/dump"
    taken=$(seconds_of "$@")
    say "$table, $name: $count instructions a row, $taken seconds"
}

command -v valgrind >/dev/null || fail "there is no valgrind"
prepare
program=$top/crates/mydumper/out/mydumper
[ -x "$program" ] || build_program
start_server
make_tables
original=$(command -v mydumper)
for table in plain dense; do
    measure ours "$table" "$program" -u "$ACCOUNT" -B "$SCHEMA" -T "$table" -o "$folder/dump"
    [ -z "$original" ] || measure "the original" "$table" "$original" -h 127.0.0.1 -P "$PORT" -u "$ACCOUNT" -t 1 \
        -B "$SCHEMA" -T "$table" -o "$folder/dump"
done
