#!/bin/sh
# Copies the program and what belongs to it below a folder, or takes that away again.
#
#   ./install.sh [--program FILE] [--magic FILE] PREFIX
#   ./install.sh --uninstall [--magic FILE] PREFIX
#
# PREFIX is ~/.local, say, or /usr/local. Copied are vcs_check, which 'bash .ci/run' or 'rt run' leaves, or FILE; the programs
# companions/vcs_*; the manual pages, completions, and the type of movies. Files that are there are replaced. What another version
# installed that this one hasn't is taken away: PREFIX/share/votmeshaw/files names the files of the version that is there.
# With DESTDIR in the environment all goes below $DESTDIR$PREFIX, and nothing else is written or run: that is for packages.
#
#   --program FILE   the program to copy, which has to say by --version that it is vcs_check
#   --magic FILE     tells file(1) the type too: adds a block to FILE, which is /etc/magic for everyone, ~/.magic for oneself
#   --uninstall      takes away the files, the block, and the folders that were made for them and are empty now
#
# Status 0 where all is done; 1 where something could not be; 4 where the arguments are wrong.
set -eu
umask 022

usage() {
    sed -n 's/^# \{0,1\}//; 2,16p' "$script"
}

# stop WORD..: ends the run with an error.
stop() {
    echo "install.sh: $*" >&2
    exit 1
}

# (through links to this script, and whatever CDPATH says)
script=$(readlink -f -- "$0")
here=${script%/*}
program=$here/crates/vcs_check/out/vcs_check
prefix='' magic='' uninstall=''
while [ $# -gt 0 ]; do
    case $1 in
    --help | -h) usage; exit 0 ;;
    --uninstall) uninstall=1 ;;
    --program | --magic)
        [ $# -gt 1 ] && [ -n "$2" ] || { usage >&2; exit 4; }
        if [ "$1" = --program ]; then program=$2; else magic=$2; fi
        shift
        ;;
    -* | '') usage >&2; exit 4 ;;
    *) [ -z "$prefix" ] || { usage >&2; exit 4; }; prefix=$1 ;;
    esac
    shift
done
[ -n "$prefix" ] || { usage >&2; exit 4; }
stage=${DESTDIR-}
if [ -n "$stage" ]; then
    case $prefix in /*) ;; *) echo 'install.sh: with DESTDIR, PREFIX begins with /' >&2; exit 4 ;; esac
    [ -z "$magic" ] || { echo 'install.sh: --magic is of this system, and DESTDIR of another' >&2; exit 4; }
fi
root=$stage$prefix
# (whose files are taken away, and a link could lead to others)
for name in share/votmeshaw share/votmeshaw/archive share/votmeshaw/companions share/votmeshaw/companions/votmeshaw \
    share/votmeshaw/companions/votmeshaw/site share/votmeshaw/companions/votmeshaw/importing share/votmeshaw/companions/logs; do
    [ ! -L "$root/$name" ] || stop "$root/$name is a link"
done
# Where this script notes the folders that it made, relative to PREFIX.
made=$root/share/votmeshaw/folders
# Where it names the files that it copied, this one too.
list=share/votmeshaw/files

# What the companions need; without it they are left out.
python=$uninstall
if python3 -c 'import sys; sys.exit(sys.version_info < (3, 11))' 2>/dev/null; then python=1; fi

# each COMMAND: calls it with mode, source and place of each file. The mode may also be 'link', where the source is what the link
# leads to, or 'page', which is the manual page that is made of a program's --help.
each() {
    "$1" 755 "$program" bin/vcs_check
    if [ -n "$python" ]; then
        for file in "$here"/companions/vcs_* "$here"/companions/logs/* "$here"/companions/votmeshaw/* "$here"/companions/votmeshaw/*/*; do
            name=${file##*/}
            case $name in *~ | *.pyc | vcs_*[!a-z_]*) continue ;; vcs_* | *.sh) mode=755 ;; *) mode=644 ;; esac
            [ -f "$file" ] || continue
            "$1" "$mode" "$file" "share/votmeshaw/${file#"$here"/}"
            case $name in vcs_*) ;; *) continue ;; esac
            "$1" link "../share/votmeshaw/companions/$name" "bin/$name"
            "$1" page "$file" "share/man/man1/$name.1"
            "$1" link ../../votmeshaw/completion.bash "share/bash-completion/completions/$name"
            "$1" link ../../votmeshaw/completion.fish "share/fish/vendor_completions.d/$name.fish"
        done
    fi
    "$1" 644 "$here/docs/vcs_check.1" share/man/man1/vcs_check.1
    for file in bash-completion/completions/vcs_check zsh/site-functions/_vcs_check fish/vendor_completions.d/vcs_check.fish \
        zsh/site-functions/_vcs_companions mime/packages/votmeshaw.xml misc/votmeshaw.magic; do
        "$1" 644 "$here/share/$file" "share/$file"
    done
    for file in completion.bash completion.fish; do "$1" 644 "$here/share/companions/$file" "share/votmeshaw/$file"; done
}

# is_free MODE FROM TO: stops before anything is copied, if a folder stands in a file's place.
is_free() {
    if [ -d "$root/$3" ] && [ ! -L "$root/$3" ]; then stop "$root/$3 is a folder"; fi
}

# folder PATH: makes a folder of PREFIX and those above it, and adds each that is new to $new.
folder() {
    [ ! -d "$root/$1" ] || return 0
    case $1 in */*) folder "${1%/*}" ;; esac
    mkdir "$root/$1"
    new="$new$1
"
}

# copy MODE FROM TO: replaces a file, also one that is running. The new one is made beside it, under a name that nobody foresees.
copy() {
    at=$root/$3
    folder "${3%/*}"
    beside=$(mktemp "$root/${3%/*}/.votmeshaw.XXXXXX")
    case $1 in
    link) ln -sfT "$2" "$beside" ;;
    page) python3 "$here/share/manual-page" "$2" >"$beside" ;;
    *) cat "$2" >"$beside" ;;
    esac
    case $1 in link) ;; 755) chmod 755 "$beside" ;; *) chmod 644 "$beside" ;; esac
    mv -fT "$beside" "$at"
    beside='' at=
}

# look MODE FROM TO: notes that a file is there.
look() {
    if [ -e "$root/$3" ] || [ -L "$root/$3" ]; then found=uninstalled; fi
}

# take_away MODE FROM TO: removes a file.
take_away() { rm -f "$root/$3"; }

# name_file MODE FROM TO: adds a file to $files.
name_file() {
    files="$files$3
"
}

# take_others: removes the files that the list names, but for $files.
take_others() {
    [ -f "$root/$list" ] && [ ! -L "$root/$list" ] || return 0
    while IFS= read -r name; do
        case /$name/ in // | //* | */../*) continue ;; esac
        case "
$files" in *"
$name
"*) continue ;; esac
        if [ ! -d "$root/$name" ] || [ -L "$root/$name" ]; then rm -f "$root/$name"; fi
    done <"$root/$list"
}

# write_list: names $files in the list.
write_list() {
    at=$root/$list
    beside=$(mktemp "$root/share/votmeshaw/.votmeshaw.XXXXXX")
    printf %s "$files" >"$beside"
    chmod 644 "$beside"
    mv -fT "$beside" "$at"
    beside='' at=
}

# remove_empty FOLDERS: removes those that hold nothing, the deepest first.
remove_empty() {
    echo "$1" | sort -r | while read -r name; do
        case /$name/ in // | */../*) continue ;; esac
        rmdir "$root/$name" 2>/dev/null || :
    done
}

# old_files [WORD]: removes the companions that this version doesn't have, or with a word all; and what 1.2.0 had elsewhere.
old_files() {
    for file in "$root"/share/votmeshaw/companions/* "$root"/share/votmeshaw/companions/votmeshaw/* \
        "$root"/share/votmeshaw/companions/votmeshaw/*/* "$root"/share/votmeshaw/companions/logs/*; do
        [ -f "$file" ] || continue
        if [ $# -gt 0 ] || [ ! -f "$here/${file#"$root"/share/votmeshaw/}" ]; then
            rm -f "$file"
            name=${file##*/}
            [ "$(readlink "$root/bin/$name")" = "../share/votmeshaw/companions/$name" ] || continue
            rm -f "$root/bin/$name" "$root/share/man/man1/$name.1" "$root/share/bash-completion/completions/$name" \
                "$root/share/fish/vendor_completions.d/$name.fish"
        fi
    done
    for file in "$root"/share/votmeshaw/archive/*; do
        if [ -f "$file" ]; then rm -f "$file"; fi
    done
    rmdir "$root/share/votmeshaw/archive" 2>/dev/null || :
    rm -f "$root/share/zsh/site-functions/_vcs_judge"
}

# without_block FILE: prints a file of magic without our block.
without_block() { sed '/^# Votmeshaw begins/,/^# Votmeshaw ends/d' "$1"; }

# write_magic [FILE]: puts our block at the end of --magic's file, or with no FILE only takes it out. An empty file goes.
write_magic() {
    [ -n "$magic" ] || return 0
    magic=$(readlink -f -- "$magic") || stop "no folder for $magic"
    [ -f "$magic" ] || [ ! -e "$magic" ] || stop "$magic is no file"
    # (each beginning with an end after it, so that nothing else is taken out)
    marks=$([ ! -f "$magic" ] || sed -n 's/^# Votmeshaw \(begins\|ends\).*/\1/p' "$magic" | tr '\n' ' ')
    case $marks in '' | 'begins ends ') ;; *) stop "$magic has half a block of ours" ;; esac
    at=$magic
    beside=$(mktemp "${magic%/*}/.votmeshaw.XXXXXX")
    if [ -f "$magic" ]; then
        cp -p "$magic" "$beside"
        without_block "$magic" >"$beside"
    else
        chmod 644 "$beside"
    fi
    if [ $# -gt 0 ]; then
        { echo '# Votmeshaw begins'; cat "$1"; echo '# Votmeshaw ends'; } >>"$beside"
    fi
    if [ -s "$beside" ]; then mv -fT "$beside" "$magic"; else rm -f "$beside" "$magic"; fi
    beside='' at=
}

# renew_types: has the system read its MIME types again. Below DESTDIR that is for the package's system to do.
renew_types() {
    [ -z "$stage" ] && [ -d "$root/share/mime/packages" ] || return 0
    command -v update-mime-database >/dev/null || return 0
    update-mime-database "$root/share/mime" >/dev/null 2>&1 || echo "install.sh: update-mime-database $root/share/mime failed" >&2
}

# forget_types: where no package of types is left, takes away what update-mime-database had made of ours.
forget_types() {
    [ -z "$stage" ] && [ -d "$root/share/mime/packages" ] || return 0
    [ -z "$(ls -A "$root/share/mime/packages")" ] || return 0
    for file in XMLnamespaces aliases generic-icons globs globs2 icons magic mime.cache subclasses treemagic types version; do
        rm -f "$root/share/mime/$file"
    done
    rmdir "$root/share/mime/application" 2>/dev/null || :
}

# end: takes away a file that was begun, and says which one could not be written.
end() {
    status=$?
    [ -z "$beside" ] || rm -rf "$beside"
    [ -z "$at" ] || echo "install.sh: not written: $at" >&2
    exit "$status"
}

beside='' at=
trap end EXIT
trap 'exit 129' HUP
trap 'exit 130' INT
trap 'exit 143' TERM

if [ -n "$uninstall" ]; then
    found='not installed'
    each look
    each take_away
    old_files all
    files=
    take_others
    write_magic
    renew_types
    forget_types
    folders=
    if [ -f "$made" ] && [ ! -L "$made" ]; then folders=$(cat "$made"); rm -f "$made"; fi
    remove_empty "$folders"
    echo "$found: $root/bin/vcs_check"
    exit 0
fi

[ -f "$program" ] || stop "no program at $program; 'bash .ci/run' builds one, and --program FILE names one"
if [ -z "$stage" ]; then
    # (which says nothing where no file says what the processor has)
    flags=$(sed -n '/^flags/{p;q;}' /proc/cpuinfo 2>/dev/null) || :
    case "$flags " in ' ' | *' sse4_2 '*) ;; *) stop 'this processor lacks SSE4.2, and the program is compiled for x86-64-v2' ;; esac
    [ -x "$program" ] || stop "$program isn't executable"
    case $("$(readlink -f -- "$program")" --version 2>/dev/null </dev/null) in
    'vcs_check '*) ;;
    *) stop "$program doesn't say by --version that it is vcs_check" ;;
    esac
fi
[ -n "$python" ] || echo 'install.sh: no Python 3.11 here, so the companions are left out' >&2
mkdir -p "$root"
each is_free
is_free - - share/votmeshaw/folders
is_free - - "$list"
new=
each copy
folder share/votmeshaw
old_files
files="$list
"
each name_file
take_others
write_list
if [ -n "$new" ] && [ -z "$stage" ]; then
    at=$made
    beside=$(mktemp "$root/share/votmeshaw/.votmeshaw.XXXXXX")
    { [ ! -f "$made" ] || cat "$made"; printf %s "$new"; } >"$beside"
    chmod 644 "$beside"
    mv -fT "$beside" "$made"
    beside='' at=
fi
if [ -f "$made" ] && [ ! -L "$made" ]; then remove_empty "$(cat "$made")"; fi
write_magic "$here/share/misc/votmeshaw.magic"
renew_types
echo "installed: $root/bin/vcs_check"
