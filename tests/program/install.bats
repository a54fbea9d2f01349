#!/usr/bin/env bats
# What `make install`, `make uninstall` and `make deb` do with the program that is built; none of them builds it here.
load common

# makes WORDS..: make with these words, of which the files go below $work/root.
makes() {
    make -s -o all PROGRAM="$DBCK" DESTDIR="$work/root" "$@"
}

# files: the files below $work/root, a line each with its mode.
files() {
    (cd "$work/root" && find . -type f -printf '%m %P\n' | sort -k 2)
}

# are_of FOLDER: below a folder of $work/root documents, script and completions are those of the repository.
are_of() {
    local name from
    for name in DECISIONS FAULTS FORMAT REPAIR; do
        cmp "$work/root/$1/share/doc/dbck/$name.md" "docs/$name.md" || return
    done
    while read -r name from; do
        cmp "$work/root/$1/$name" "$from" || return
    done << 'END'
share/doc/dbck/both-ways.sh docs/both-ways.sh
share/bash-completion/completions/dbck completions/dbck.bash
share/fish/vendor_completions.d/dbck.fish completions/dbck.fish
END
}

@test 'make install puts the program, its manual, completions and documents in their places' {
    needs make install
    row 'make install' makes install PREFIX=/usr/local
    row 'the files' diff <(files) - << 'END'
755 usr/local/bin/dbck
644 usr/local/share/bash-completion/completions/dbck
644 usr/local/share/doc/dbck/DECISIONS.md
644 usr/local/share/doc/dbck/FAULTS.md
644 usr/local/share/doc/dbck/FORMAT.md
644 usr/local/share/doc/dbck/REPAIR.md
755 usr/local/share/doc/dbck/both-ways.sh
644 usr/local/share/fish/vendor_completions.d/dbck.fish
644 usr/local/share/man/man1/dbck.1
644 usr/local/share/zsh/site-functions/_dbck
END
    row 'what they have' are_of usr/local
    row 'the program' cmp "$DBCK" "$work/root/usr/local/bin/dbck"
    row 'the manual' cmp docs/dbck.1 "$work/root/usr/local/share/man/man1/dbck.1"
    row 'what zsh gets' cmp completions/_dbck "$work/root/usr/local/share/zsh/site-functions/_dbck"
}

@test 'make install and make uninstall without PREFIX are of /usr/local, and not of a package' {
    needs make install
    unset PREFIX
    mkdir -p "$work/root/usr/bin"
    : > "$work/root/usr/bin/dbck"
    row 'make install' makes install
    row 'where the files are' [ "$(cd "$work/root/usr" && find . -type f | cut -d / -f 2 | sort -u | tr '\n' ' ')" = 'bin local ' ]
    row 'the program' cmp "$DBCK" "$work/root/usr/local/bin/dbck"
    row 'the one of a package' [ ! -s "$work/root/usr/bin/dbck" ]
    row 'make uninstall' makes uninstall
    row 'what is left' [ "$(files)" = '644 usr/bin/dbck' ]
}

@test 'make uninstall takes all of it away, and nothing of others' {
    needs make install
    row 'make install' makes install PREFIX=/usr
    files > "$work/kept"
    row 'make install elsewhere' makes install PREFIX=/opt/dbck
    row 'make uninstall there' makes uninstall PREFIX=/opt/dbck
    row 'nothing is left there' [ "$(cd "$work/root" && find opt | sort | tr '\n' ' ')" = 'opt opt/dbck ' ]
    row 'what was installed before' diff <(files) "$work/kept"
    : > "$work/root/usr/bin/other"
    : > "$work/root/usr/share/bash-completion/completions/other"
    : > "$work/root/usr/share/doc/dbck/other"
    row 'make uninstall beside others' makes uninstall PREFIX=/usr
    row 'those of others' diff <(files) <(printf '644 usr/%s/other\n' bin share/bash-completion/completions share/doc/dbck)
}

# says_nothing COMMAND..: the command ends with 0, and writes nothing.
says_nothing() {
    "$@" > "$work/out" 2>&1 && [ ! -s "$work/out" ]
}

@test 'make uninstall says nothing of what is not there' {
    local lines
    needs make install
    # The commands themselves are shown, but for -s.
    row 'no folder' says_nothing makes uninstall PREFIX=/none
    mkdir -p "$work/root/opt/share/man"
    row 'no files' says_nothing makes uninstall PREFIX=/opt
    row 'a folder of others' [ -d "$work/root/opt/share/man" ]
    row 'make install' makes install PREFIX=/opt
    row 'make uninstall' says_nothing makes uninstall PREFIX=/opt
    row 'what is left' [ "$(cd "$work/root" && find . | sort | tr '\n' ' ')" = '. ./opt ' ]
    row 'once more' says_nothing makes uninstall PREFIX=/opt
}

@test 'make uninstall leaves the folders of every system, also where PREFIX ends with a slash' {
    needs make install
    row 'make install' makes install PREFIX=/usr/local/
    row 'make uninstall' makes uninstall PREFIX=/usr/local/
    row 'what is left' [ "$(cd "$work/root/usr/local" && find . | sort | tr '\n' ' ')" = '. ./bin ./share ./share/man ./share/man/man1 ' ]
}

# Of the tools that remove something, rm does nothing here, and rmdir only says where it would.
@test 'make uninstall with empty DESTDIR and PREFIX removes nothing of the caller' {
    needs make
    mkdir -p "$work/bin" "$work/home/bin" "$work/home/share/man/man1"
    ln -s "$(type -P true)" "$work/bin/rm"
    # shellcheck disable=SC2016
    printf '#!/bin/sh\npwd -P >> "$HOME/said"\n' > "$work/bin/rmdir"
    chmod 755 "$work/bin/rmdir"
    HOME=$work/home PATH=$work/bin:$PATH row 'make uninstall' makes uninstall DESTDIR= PREFIX=
    row 'where folders are removed' [ "$(sort -u "$work/home/said")" = / ]
}

# In a shell such a name is two, and the first of them may be a file of somebody.
@test 'make install and make uninstall refuse a folder whose name has a blank' {
    local target folder
    needs make install
    mkdir -p "$work/root/my root"
    : > "$work/root/my"
    for target in install uninstall; do
        for folder in "DESTDIR=$work/root/my root" 'PREFIX=/my root'; do
            row "make $target $folder" [ "$(makes "$target" "$folder" 2>&1 | sed 's/.*\*\*\* //')" = 'DESTDIR and PREFIX must not have blanks.  Stop.' ]
        done
    done
    row 'the file' [ -f "$work/root/my" ]
    row 'the folder' [ -z "$(ls "$work/root/my root")" ]
}

@test 'make install, make deb and make static build the program first' {
    local target
    needs make
    for target in install deb static; do
        row "make $target" grep -q 'crates/dbck && rt run' <(make -n "$target")
    done
    row 'the version of the package' grep -qx "packaging/make-deb crates/dbck/out/dbck $(make -s version)" <(make -n deb)
    # It is another file than the program.
    row 'make static' grep -q -- ' -static -o crates/dbck/out/dbck-static ' <(make -n static 2> "$work/why")
}

# make_deb FOLDER VERSION: makes a package of a copy of the program in this folder of $work, with its own folder for temporary files.
make_deb() {
    mkdir -p "$work/$1" "$work/temporary"
    cp "$DBCK" "$work/given"
    (cd "$work/$1" && TMPDIR=$work/temporary "$root/packaging/make-deb" "$work/given" "$2") > "$work/said" 2>&1
}

@test 'the package has the same files, examples, and the sums of all' {
    local bytes name size
    needs make install dpkg-deb strip gzip md5sum
    # Whatever the mask of the caller is.
    (umask 077 && MAINTAINER='A Name <name@dbck.invalid>' make_deb made 1.2.3)
    row 'the program that is given' cmp "$DBCK" "$work/given"
    row 'the package' dpkg-deb -x "$work/made/dbck_1.2.3_amd64.deb" "$work/root"
    dpkg-deb -e "$work/made/dbck_1.2.3_amd64.deb" "$work/control"
    row 'the files' diff <(files) - << 'END'
755 usr/bin/dbck
644 usr/share/bash-completion/completions/dbck
644 usr/share/doc/dbck/DECISIONS.md
644 usr/share/doc/dbck/FAULTS.md
644 usr/share/doc/dbck/FORMAT.md
644 usr/share/doc/dbck/REPAIR.md
755 usr/share/doc/dbck/both-ways.sh
644 usr/share/doc/dbck/changelog.gz
644 usr/share/doc/dbck/copyright
644 usr/share/doc/dbck/examples/empty.db
644 usr/share/doc/dbck/examples/two-owners.db
644 usr/share/doc/dbck/examples/two-tables.db
644 usr/share/doc/dbck/examples/whole.db
644 usr/share/fish/vendor_completions.d/dbck.fish
644 usr/share/man/man1/dbck.1.gz
644 usr/share/zsh/vendor-completions/_dbck
END
    row 'what they have' are_of usr
    row 'the manual' cmp docs/dbck.1 <(gzip -dc "$work/root/usr/share/man/man1/dbck.1.gz")
    row 'what zsh gets' cmp completions/_dbck "$work/root/usr/share/zsh/vendor-completions/_dbck"
    row 'the copyright' cmp packaging/copyright "$work/root/usr/share/doc/dbck/copyright"
    for name in empty two-owners two-tables whole; do
        row "the example $name" cmp "$data/$name.db" "$work/root/usr/share/doc/dbck/examples/$name.db"
    done
    row 'the version' grep -qx 'Version: 1.2.3' "$work/control/control"
    row 'the processor' grep -qx 'Architecture: amd64' "$work/control/control"
    row 'the C library' grep -qx 'Depends: libc6 (>= 2.34)' "$work/control/control"
    row 'the maintainer' grep -qx 'Maintainer: A Name <name@dbck.invalid>' "$work/control/control"
    row 'whose change it is' grep -q '^ -- A Name <name@dbck.invalid>  ' <(gzip -dc "$work/root/usr/share/doc/dbck/changelog.gz")
    # In units of 1024 bytes, and folders count too.
    size=$(sed -n 's/^Installed-Size: //p' "$work/control/control")
    bytes=$(find "$work/root/usr" -type f -printf '%s\n' | awk '{ all += $1 } END { print all }')
    row 'the size' [ "$((size * 1024 >= bytes && size * 512 < bytes))" = 1 ]
    row 'the sums' eval "(cd '$work/root' && md5sum --quiet -c '$work/control/md5sums')"
    row 'a sum for each' [ "$(wc -l < "$work/control/md5sums")" = 16 ]
    row 'all are those of root' [ "$(dpkg-deb -c "$work/made/dbck_1.2.3_amd64.deb" | awk '{ print $2 }' | sort -u)" = root/root ]
    # The program of the package answers of the examples what the manual says.
    row 'an example' [ "$("$work/root/usr/bin/dbck" check "$work/root/usr/share/doc/dbck/examples/whole.db")" = ok ]
}

# fails COMMAND..: the command ends with another status than 0.
fails() {
    ! "$@"
}

@test 'make-deb leaves nothing but the package, and nothing at all where a tool fails' {
    local tool
    needs make install dpkg-deb strip gzip md5sum
    row 'the package' make_deb made 1.2.3
    row 'what is there' [ "$(cd "$work" && find made temporary -mindepth 1)" = made/dbck_1.2.3_amd64.deb ]
    rm "$work/made"/*
    mkdir "$work/bin"
    for tool in install strip gzip dpkg-deb; do
        printf '#!/bin/sh\nexit 1\n' > "$work/bin/$tool"
        chmod 755 "$work/bin/$tool"
        PATH=$work/bin:$PATH row "$tool fails" fails make_deb made 1.2.3
        row "what is there where $tool fails" [ -z "$(cd "$work" && find made temporary -mindepth 1)" ]
        rm "$work/bin/$tool"
    done
}

# words_of FILE FIRST LAST: the words between two lines of a text, without the signs of a list.
words_of() {
    sed -n "/^$2/,/^$3/{/^$2/d;/^$3/d;s/^ *[-*] //;p}" "$1" | tr -s ' \n' '\n'
}

@test 'a package that is made again from the same commit has the same bytes, and the changes of its version' {
    local version
    needs make install dpkg-deb strip gzip
    version=$(make -s version)
    make_deb one "$version"
    TZ=Asia/Tokyo make_deb other "$version"
    row 'two packages' cmp "$work/one/dbck_${version}_amd64.deb" "$work/other/dbck_${version}_amd64.deb"
    dpkg-deb -x "$work/one/dbck_${version}_amd64.deb" "$work/root"
    gzip -dc "$work/root/usr/share/doc/dbck/changelog.gz" > "$work/changelog"
    row 'the changelog begins' [ "$(head -n 1 "$work/changelog")" = "dbck ($version) unstable; urgency=medium" ]
    row 'its entries' [ "$(grep -c '^  \* ' "$work/changelog")" -gt 3 ]
    row 'its words' diff <(words_of CHANGELOG.md "## $version" '## ') <(words_of "$work/changelog" 'dbck ' ' -- ')
}

@test 'the version of the package is that of the program' {
    needs make
    row 'the version' [ "dbck $(make -s version)" = "$("$DBCK" --version)" ]
}
