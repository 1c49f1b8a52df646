#!/usr/bin/env bash
# Shows mydumper at work: starts a real server on files in a temporary folder, makes two tables, one of
# them with a single text of 40 MiB, dumps one, loads the file with the server's own client into a second
# database, and compares the tables. So far the program is compiled without its proof, within a minute.
# With --proved the program is proved and built first; then one table is dumped by an account with a
# password too, and refused where the password is wrong, and the long text is dumped and loaded.
# The status is 0 exactly where all of it is as it should be.
set -u
. "$(dirname "${BASH_SOURCE[0]}")/server.sh" || exit 1

ACCOUNT=reader
GUARDED=keeper
PASSWORD=secret
WRONG=sesame
SOURCE=shop
TARGET=shop_again
TABLE=items
LONG_TABLE=texts


proved=
case "${1-}" in
--proved) proved=yes ;;
'') ;;
*)
    printf 'demo: the only word is --proved\n' >&2
    exit 2
    ;;
esac

make_tables() {
    client <<SQL || fail "the tables were not made"
SET sql_mode='';
CREATE USER '$ACCOUNT'@'127.0.0.1' IDENTIFIED WITH mysql_native_password USING '';
CREATE USER '$GUARDED'@'127.0.0.1' IDENTIFIED WITH mysql_native_password USING PASSWORD('$PASSWORD');
CREATE DATABASE $SOURCE CHARACTER SET utf8mb4;
CREATE TABLE $SOURCE.$TABLE (
  id int NOT NULL PRIMARY KEY,
  big bigint unsigned,
  price decimal(10,2),
  \`a\`\`b\` varchar(100),
  \`größe\` enum('klein','groß'),
  note text,
  seen timestamp NULL
);
GRANT SELECT ON $SOURCE.$TABLE TO '$ACCOUNT'@'127.0.0.1', '$GUARDED'@'127.0.0.1';
INSERT INTO $SOURCE.$TABLE VALUES
(1, 18446744073709551615, -0.50, 'it''s', 'klein', 'a "quoted" word', '2024-05-01 12:00:00'),
(2, 0, 12345678.90, 'C:\\\\dir', 'groß', 'two\nlines\r\n', NULL),
(3, NULL, NULL, NULL, NULL, NULL, NULL),
(4, 7, 0.00, CONCAT('a', CHAR(0), 'b', CHAR(26), 'c'), 'klein', 'NULL', NULL),
(5, 8, 1.00, 'naïve – 漢字 – 🙂', 'groß', '', NULL),
(-6, 9, 1.25, '\`;-- ', 'klein', ');DROP TABLE t;', NULL);
CREATE TABLE $SOURCE.$LONG_TABLE (id int NOT NULL PRIMARY KEY, note longtext);
GRANT SELECT ON $SOURCE.$LONG_TABLE TO '$ACCOUNT'@'127.0.0.1';
INSERT INTO $SOURCE.$LONG_TABLE VALUES (1, REPEAT('it''s a long\ntext', 2621440));
CREATE DATABASE $TARGET CHARACTER SET utf8mb4;
CREATE TABLE $TARGET.$TABLE LIKE $SOURCE.$TABLE;
CREATE TABLE $TARGET.$LONG_TABLE LIKE $SOURCE.$LONG_TABLE;
SQL
}

# The rows of a table, every cell as the digits of its bytes, in the order of the lines.
rows_of() {
    client --batch --skip-column-names -e "SELECT $cells FROM $1.$TABLE" | LC_ALL=C sort
}

compare_tables() {
    local cells
    cells=$(client --batch --skip-column-names --raw -e "
        SET group_concat_max_len=1000000;
        SELECT GROUP_CONCAT('HEX(CAST(\`', REPLACE(COLUMN_NAME, '\`', '\`\`'), '\` AS BINARY))'
            ORDER BY ORDINAL_POSITION)
        FROM information_schema.COLUMNS WHERE TABLE_SCHEMA='$SOURCE' AND TABLE_NAME='$TABLE'") || return 1
    rows_of "$SOURCE" >"$folder/source.rows" && rows_of "$TARGET" >"$folder/target.rows" || return 1
    [ -s "$folder/source.rows" ] && cmp "$folder/source.rows" "$folder/target.rows"
}

# How many rows the table with the long text has, how many bytes of text, and the text's digest.
long_text_of() {
    client --batch --skip-column-names -e "SELECT COUNT(*), SUM(LENGTH(note)), MAX(MD5(note)) FROM $1.$LONG_TABLE"
}

# Runs mydumper with these words; its status is $status then. The folder that it dumps into is the last word.
run() {
    say "mydumper $*"
    if [ -n "$proved" ]; then
        (cd "$folder" && "$program" "$@")
        status=$?
    else
        local words=("${@:1:$#-1}") into=$folder/${!#}
        (cd "$top/crates/mydumper" && rt try -- "${words[@]}" "$into") >"$folder/try.log" 2>&1 </dev/null
        status=$?
        [ "$status" -eq 0 ] || tail -n 5 "$folder/try.log" >&2
    fi
}

# Dumps a table of $SOURCE into this new folder, by the account of the further words; the file is $file then.
dump() {
    local table=$1 into=$2
    shift 2
    run "$@" -B "$SOURCE" -T "$table" -o "$into"
    [ "$status" -eq 0 ] || fail "mydumper ended with status $status"
    file=$folder/$into/$SOURCE.$table.00000.sql
    [ -f "$file" ] || fail "there is no file $SOURCE.$table.00000.sql"
    say "$into/$SOURCE.$table.00000.sql, $(wc -c <"$file") bytes"
}

# A login that the server refuses: the status is 3, and nothing is written into the new folder.
be_refused() {
    local into=$1
    shift
    run "$@" -B "$SOURCE" -T "$TABLE" -o "$into"
    [ "$status" -eq 3 ] || fail "mydumper ended with status $status, and not with 3"
    [ -d "$folder/$into" ] && [ -z "$(ls -A "$folder/$into")" ] || fail "the folder $into isn't empty"
    say "status $status, and $into is empty"
}

load() {
    say "loading the file into $TARGET"
    client --binary-mode --max-allowed-packet="$LIMIT" --init-command="SET SESSION sql_mode='NO_AUTO_VALUE_ON_ZERO'" \
        "$TARGET" <"$file" || fail "the client did not load the file"
}

prepare
if [ -n "$proved" ]; then
    build_program
else
    say "this run compiles mydumper and proves nothing; ./demo.sh --proved builds it with its proof"
fi
start_server
make_tables

dump "$TABLE" dump -u "$ACCOUNT"
cat "$file"
first=$file
load
compare_tables || fail "$SOURCE.$TABLE and $TARGET.$TABLE are not equal"
say "$SOURCE.$TABLE and $TARGET.$TABLE: $(wc -l <"$folder/source.rows") rows, equal"

[ -n "$proved" ] || exit 0

dump "$TABLE" dump_keeper -u "$GUARDED" -p "$PASSWORD"
cmp "$first" "$file" || fail "the two files of $SOURCE.$TABLE are not equal"
say "the two files of $SOURCE.$TABLE: equal"
be_refused dump_refused -u "$GUARDED" -p "$WRONG"

dump "$LONG_TABLE" dump_long -u "$ACCOUNT"
load
dumped=$(long_text_of "$SOURCE") && loaded=$(long_text_of "$TARGET") || fail "the texts were not read"
[ -n "$dumped" ] && [ "$dumped" = "$loaded" ] || fail "$SOURCE.$LONG_TABLE and $TARGET.$LONG_TABLE are not equal"
read -r _ size digest <<<"$dumped"
say "$SOURCE.$LONG_TABLE and $TARGET.$LONG_TABLE: a text of $size bytes, MD5 $digest, equal"
