#!/usr/bin/env bash
# Takes the databases out of the corpora of SQLite's own fuzz tests: sqlite_corpora.sh SOURCE FOLDER. SOURCE is SQLite's source,
# as Debian's package has it (`apt-get source sqlite3`). The corpora are databases themselves, test/fuzzdata1.db to fuzzdata8.db,
# whose table `db` has a database in each row. Row 7 of fuzzdata3.db becomes FOLDER/fuzzdata3-00007.db. It says how many each had.
set -eu
source=${1:?give the folder of the source of SQLite, and one for the databases}
folder=${2:?give a folder for the databases}
mkdir -p "$folder"
folder=$(realpath "$folder")
case $folder in
    *"'"*) echo "no quotation mark may be in the name $folder" >&2 && exit 2 ;;
esac
for corpus in "$source"/test/fuzzdata?.db; do
    name=$(basename "$corpus" .db)
    rows=$(sqlite3 -batch -init /dev/null "file:$corpus?immutable=1" \
        "SELECT count(writefile(printf('%s/%s-%05d.db', '$folder', '$name', dbid), dbcontent)) FROM db")
    echo "$rows databases of $name.db"
done
