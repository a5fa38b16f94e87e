#!/bin/sh
# Makes a catalogue that brestore reads from the catalogue that Bacula keeps.
#
#     catalogue/import.sh NEW.db [-h HOST] [-p PORT] [-U USER] DB             by psql, from PostgreSQL
#     catalogue/import.sh NEW.db --mysql [-h HOST] [-p PORT] [-U USER] DB     by mysql, from MySQL or MariaDB
#     catalogue/import.sh NEW.db --sqlite FILE                                from a file of SQLite
#
# docs/IMPORTING.md says how it is used, docs/formats.md what it takes and what it prints. The database is only read.
# sqlite.sql, pgsql.sql and mysql.sql read it. stage.sql has the tables for its rows; lines.sql fills them from the lines that the client
# of a server prints. rules.sql makes the catalogue.

set -eu
LC_ALL=C
export LC_ALL
here=$(CDPATH='' cd -- "$(dirname -- "$0")" && pwd)

usage() {
    cat <<'END'
usage: import.sh NEW.db [-h HOST] [-p PORT] [-U USER] DB
       import.sh NEW.db --mysql [-h HOST] [-p PORT] [-U USER] DB
       import.sh NEW.db --sqlite FILE
options:
  --client NAME     only the jobs of this client
  --fileset NAME    only the jobs of this file set
  --after MOMENT    only the jobs that began at this moment or later: 'YYYY-MM-DD HH:MM:SS', in UTC
  --strict          end with status 1 if anything is not taken, or not as it was
  --program FILE    the program brestore (default: that of PATH)
END
}

bad_usage() {
    echo "import.sh: $*" >&2
    usage >&2
    exit 2
}

fail() {
    echo "import.sh: $*" >&2
    exit 3
}

# Prints the bytes of a text in hexadecimal.
hex() {
    printf %s "$1" | od -An -v -tx1 | tr -d ' \n'
}

new='' base='' kind=pgsql source='' host='' port='' user=''
client='' fileset='' after='' is_strict='' program=brestore

while [ $# -gt 0 ]; do
    case $1 in
    --help)
        usage
        exit 0
        ;;
    --mysql) kind=mysql ;;
    --strict) is_strict=yes ;;
    -h | -p | -U | --sqlite | --client | --fileset | --after | --program)
        if [ $# -lt 2 ] || [ -z "$2" ]; then bad_usage "$1 needs a value"; fi
        case $1 in
        -h) host=$2 ;;
        -p) port=$2 ;;
        -U) user=$2 ;;
        --sqlite) kind=sqlite source=$2 ;;
        --client) client=$2 ;;
        --fileset) fileset=$2 ;;
        --after) after=$2 ;;
        --program) program=$2 ;;
        esac
        shift
        ;;
    -?*) bad_usage "unknown option $1" ;;
    '') bad_usage 'an empty word' ;;
    *)
        if [ -z "$new" ]; then
            new=$1
        elif [ -z "$base" ]; then
            base=$1
        else
            bad_usage "one word too many: $1"
        fi
        ;;
    esac
    shift
done
[ -n "$new" ] || bad_usage 'the name of the new catalogue is missing'
if [ $kind = sqlite ]; then
    [ -z "$base$host$port$user" ] || bad_usage '--sqlite takes no database but its file'
else
    [ -n "$base" ] || bad_usage 'the name of the database is missing'
fi

needs() {
    command -v "$1" > /dev/null || fail "there is no $1$2"
}

for file in stage.sql lines.sql rules.sql "$kind.sql"; do
    [ -r "$here/$file" ] || fail "$here/$file is missing: call the script by its own path, not by a link"
done
needs sqlite3 ': install it'
sqlite3 -init /dev/null :memory: "SELECT iif(json_extract('[1]', '\$[0]') = row_number() OVER (), 1, 0)" > /dev/null 2>&1 ||
    fail "sqlite3 is too old, since 3.32 is needed: $(sqlite3 --version)"
needs "$program" ': put its folder into PATH, or give --program FILE'
case $kind in
pgsql) needs psql ': install the client of PostgreSQL' ;;
mysql)
    mysql=mariadb
    ! command -v mysql > /dev/null || mysql=mysql
    command -v $mysql > /dev/null || fail 'there is no mysql and no mariadb: install the client of the database'
    ;;
sqlite)
    [ -f "$source" ] || fail "$source is no file"
    folder=$(CDPATH='' cd -- "$(dirname -- "$source")" && pwd)
    # The file as a URI of SQLite, opened to read only: each byte of its path by its number.
    uri="file:$(hex "$folder/${source##*/}" | sed "s/../%&/g")?mode=ro"
    ;;
esac

if [ -n "$after" ]; then
    case $after in
    [0-9][0-9][0-9][0-9]-[0-9][0-9]-[0-9][0-9]' '[0-9][0-9]:[0-9][0-9]:[0-9][0-9]) ;;
    *) bad_usage "$after is no moment" ;;
    esac
    # A day that the calendar lacks becomes another one.
    [ "$(sqlite3 -init /dev/null :memory: "SELECT datetime(strftime('%s', '$after'), 'unixepoch')")" = "$after" ] ||
        bad_usage "$after is no moment"
    after=$(sqlite3 -init /dev/null :memory: "SELECT strftime('%s', '$after')")
fi

# Nothing is written over. A log that lies there belongs to another catalogue, and would spoil this one.
must_be_free() {
    for file in "$new" "$new-wal" "$new-journal"; do
        if [ -e "$file" ] || [ -L "$file" ]; then fail "$file is there already"; fi
    done
}

must_be_free
work=$new.import.$$
mkdir -m 700 -- "$work" || fail "no folder can be made beside $new"
step=''
# Ends what still runs, and removes the folder.
clean() {
    for number in $step $(cat "$work/client" 2> /dev/null); do
        kill "$number" 2> /dev/null || :
    done
    rm -rf -- "$work"
}
trap clean EXIT
trap 'exit 3' HUP INT PIPE TERM

# Runs SQLite over the database of the rows as they were, with the new catalogue beside it.
exec_sqlite() {
    cd -- "$work" && exec env SQLITE_TMPDIR=. sqlite3 -batch -bail -init /dev/null rows.db "$@"
}

run_sqlite() {
    (exec_sqlite "$@")
}

# Waits for the step that was started last, and then for all before it in its pipe. A shell that waits hears a signal at once.
wait_for_step() {
    step=$! status=0
    wait "$step" || status=$?
    step=''
    [ $status = 0 ] || return $status
    wait
}

# Run the client of the database, with statements from standard input. While it runs, a file has its number.
run_client() {
    status=0
    sh -c 'echo $$ > "$0" && exec "$@"' "$work/client" "$@" || status=$?
    rm -f -- "$work/client"
    return $status
}

run_pgsql() {
    run_client env PGCLIENTENCODING=SQL_ASCII psql -X -q -A -t -v ON_ERROR_STOP=1 ${host:+-h "$host"} ${port:+-p "$port"} ${user:+-U "$user"} -d "$base"
}

run_mysql() {
    case $host in
    /*) set -- --socket="$host" ;;
    ?*) set -- --host="$host" ;;
    *) set -- ;;
    esac
    run_client "$mysql" "$@" ${port:+--port="$port"} ${user:+--user="$user"} --batch --quick --skip-column-names --default-character-set=latin1 --database="$base"
}

# Whether the names of files are in a table of their own, as before Bacula 11, and which text of SQL limits the jobs.
within='1 = 1'
case $kind in
pgsql)
    is_old=$(run_pgsql <<'END'
SELECT CASE WHEN to_regclass('file') IS NULL THEN 'none' ELSE count(*)::text END
FROM pg_attribute WHERE attrelid = to_regclass('file') AND attname = 'filenameid' AND NOT attisdropped;
END
    ) || fail 'the database cannot be read'
    client_name="encode(convert_to(c.Name, 'SQL_ASCII'), 'hex')"
    fileset_name="encode(convert_to(s.FileSet, 'SQL_ASCII'), 'hex')"
    start='j.JobTDate - coalesce(extract(epoch FROM j.EndTime - j.StartTime), 0)'
    ;;
mysql)
    is_old=$(run_mysql <<'END'
SELECT CASE count(*) WHEN 0 THEN 'none' ELSE sum(column_name = 'FilenameId') END
FROM information_schema.columns WHERE table_schema = DATABASE() AND table_name = 'File';
END
    ) || fail 'the database cannot be read: if it has a password, it belongs in ~/.my.cnf'
    tables=$(run_mysql <<'END'
SELECT count(*) FROM information_schema.tables
WHERE table_schema = DATABASE() AND table_name IN ('Job', 'JobMedia', 'File', 'Path') AND engine <> 'InnoDB';
END
    ) || fail 'the database cannot be read'
    [ "$tables" = 0 ] || echo 'import.sh: the tables have no transactions: no job may run while they are read' >&2
    client_name='lower(hex(c.Name))'
    fileset_name='lower(hex(s.FileSet))'
    start='CAST(j.JobTDate AS SIGNED) - ifnull(timestampdiff(SECOND, j.StartTime, j.EndTime), 0)'
    ;;
sqlite)
    is_old=$(run_sqlite -cmd '.timeout 60000' "ATTACH '$uri' AS bacula;
SELECT CASE count(*) WHEN 0 THEN 'none' ELSE sum(lower(name) = 'filenameid') END FROM pragma_table_info('File', 'bacula');") || fail "$source cannot be read"
    client_name='lower(hex(c.Name))'
    fileset_name='lower(hex(s.FileSet))'
    start="j.JobTDate - coalesce(CASE typeof(j.EndTime) WHEN 'text' THEN strftime('%s', j.EndTime) - strftime('%s', j.StartTime) END, 0)"
    ;;
esac
[ "$is_old" != none ] || fail "${base:-$source} has no table File that may be read: is it Bacula's catalogue?"
if [ "$is_old" = 1 ]; then
    name=n.Name names=' LEFT JOIN @Filename n ON n.FilenameId = f.FilenameId'
else
    name=f.Filename names=''
fi
if [ -n "$client" ]; then within="$within AND $client_name = '$(hex "$client")'"; fi
if [ -n "$fileset" ]; then within="$within AND $fileset_name = '$(hex "$fileset")'"; fi
if [ -n "$after" ]; then within="$within AND $start >= $after"; fi
# Rows of no job belong to no client, file set or moment.
all=0
if [ "$within" = '1 = 1' ]; then all=1; fi

# Prints the statements that read the database. A table of Bacula's has an `@` before its name.
reading() {
    before=''
    if [ $kind = sqlite ]; then before=bacula.; fi
    sed -e "s|@names@|$names|g" -e "s|@name@|$name|g" -e "s|@within@|$within|g" -e "s|@all@|$all|g" -e "s|@uri@|${uri-}|g" \
        -e "s|@\([A-Z]\)|$before\1|g" "$here/$kind.sql"
}

# Ends without a catalogue. Says why each job is left out and, if not all jobs were asked for, which names there are.
no_job() {
    cat "$work/lines" >&2
    [ $all = 0 ] || fail 'there is no job to take'
    echo 'import.sh: there is no job to take of this client and file set after this moment. The database has:' >&2
    run_sqlite "SELECT 'client ' || name FROM client UNION SELECT 'file set ' || name FROM fileset ORDER BY 1" >&2 || :
    exit 3
}

# The empty tables are made by the program itself.
said=$("$program" serve --db "$work/new.db" --volumes "$work" < /dev/null 2>&1) ||
    fail "$program cannot make a catalogue beside $new: ${said:-it says nothing}. Is there room?"
# What is printed last says that nothing is missing. The lines of a client become rows of in_file at first: one that cannot be added is no
# more than a line on standard error.
if [ $kind = sqlite ]; then
    { cat "$here/stage.sql" && reading; } | exec_sqlite > /dev/null 2> "$work/said" &
else
    tables=$(sed '/^--/d' "$here/stage.sql") moves=$(sed '/^--/d' "$here/lines.sql")
    reading | run_$kind |
        exec_sqlite "$tables" BEGIN '.mode ascii' '.separator "\t" "\n"' '.import /dev/stdin in_file' "$moves" COMMIT \
            > /dev/null 2> "$work/said" &
fi
copied=0
wait_for_step || copied=$?
head -n 9 "$work/said" >&2
if [ $copied != 0 ] || [ -s "$work/said" ]; then fail "the rows of the database cannot be copied into the folder of $new"; fi
[ "$(run_sqlite 'SELECT count(*) FROM in_end')" = 1 ] || fail 'the database cannot be read to its end'
exec_sqlite < "$here/rules.sql" > /dev/null &
wait_for_step || fail "the catalogue cannot be made in the folder of $new"
run_sqlite "SELECT kind || ' ' || JobId || ' ' || count FROM line ORDER BY JobId, kind" > "$work/lines" || fail 'the lines cannot be read'
jobs=$(run_sqlite 'SELECT count(*) FROM job WHERE kind IS NULL') || fail 'the jobs cannot be counted'
[ "$jobs" != 0 ] || no_job
files=$(run_sqlite "ATTACH 'new.db' AS new; SELECT count(*) FROM new.File") || fail 'the files cannot be counted'
rm -f -- "$work/rows.db"

said=$("$program" jobs --db "$work/new.db" 2>&1 > "$work/jobs") || fail "$program does not take the catalogue: $said"
[ "$(wc -l < "$work/jobs")" -eq "$jobs" ] || fail "$program does not list each job"
must_be_free
mv -- "$work/new.db" "$new" || fail "$new cannot be made"
cat "$work/lines"
echo "imported $jobs $files"
if [ -n "$is_strict" ] && [ -s "$work/lines" ]; then exit 1; fi
