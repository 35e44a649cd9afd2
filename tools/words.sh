# For the scripts of this repository, which source it: what they say when they are asked for help, are given a word that they do not know,
# or do not find what they need. A script's help is the comment at its top.
script=$(readlink -f "$0")
name=$(basename "$(dirname "$script")")/$(basename "$script")

# refuse LINE: one line on standard error, and status 2.
refuse() {
    echo "$name: $1" >&2
    exit 2
}

# help_if_asked WORDS..: prints the script's help and ends it where the first of its words is --help.
help_if_asked() {
    [ "${1-}" = --help ] || return 0
    sed -n '2,/^[^#]/s/^# \{0,1\}//p' "$script"
    exit 0
}

# no_words WORDS..: the same for a script that takes none, and refuses them.
no_words() {
    help_if_asked "$@"
    [ $# -eq 0 ] || refuse "takes no words, and got '$*'"
}

# needs COMMAND..
needs() {
    for command in "$@"; do
        command -v "$command" >/dev/null || refuse "needs $command, which is not on the path"
    done
}

# needs_built ROOT NAME: a program that rt builds.
needs_built() {
    [ -x "$1/crates/$2/out/$2" ] || refuse "needs crates/$2/out/$2; run \`rt run\` in crates/$2 first"
}

# writes FOLDER: a script that builds puts it there, and says so where it may not.
writes() {
    local at=$1
    while [ ! -e "$at" ]; do at=$(dirname "$at"); done
    [ -w "$at" ] || refuse "needs to write into $1, and may not"
}
