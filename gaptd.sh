#!/bin/sh
# Runs gaptd with the words and the standard input that are given. Where the program isn't there, or a source has changed since, the crates
# that it stands on are proved first, and it is built. With --unproved as the first word nothing is proved, and the replies come sooner.
unset CDPATH
top=$(cd "$(dirname "$0")" && pwd) || exit 125
program="$top/crates/gaptd/out/gaptd"
# What runs in the background, the folder of this run's files, and the program while it is copied to its place.
child='' work='' half=''
newline='
'

say() {
    printf 'gaptd.sh: %s\n' "$*" >&2
}

# (A copy that was proved has so many files that nobody waits until they are removed.)
remove() {
    rm -rf "$@" >/dev/null 2>&1 9>&- &
}

clean() {
    remove ${work:+"$work"} ${half:+"$half"}
}

# Ends what runs in the background, and then the script, as the signal does.
broken() {
    trap '' HUP INT TERM
    if [ -n "$child" ]; then
        { kill "$child" && wait "$child"; } 2>/dev/null
    fi
    clean
    trap - "$1"
    kill -s "$1" $$
}

when_broken() {
    trap 'broken HUP' HUP
    trap 'broken INT' INT
    trap 'broken TERM' TERM
}

# Waits for what runs in the background.
await() {
    wait "$child"
    status=$?
    child=''
    return "$status"
}

has_rt() {
    command -v rt >/dev/null || { say "there is no command rt. It comes with the Rattle kit" && return 1; }
}

# The lines of crates.txt for the program's crate and those that it stands on, lowest first. Crates that only test aren't among them.
needed() {
    awk '
        function take(crate, words, number) {
            if (!(crate in line) || crate in taken) return
            taken[crate] = 1
            for (number = split(line[crate], words, /[: ]+/); number > 1; number--) take(words[number])
            print line[crate]
        }
        { gsub(/#.*|^[ \t]+/, ""); gsub(/\t/, " ") }
        /:/ { split($0, words, /[: ]+/); line[words[1]] = $0 }
        END { take("gaptd") }' "$top/crates.txt"
}

names() {
    needed | sed 's/[: ].*//'
}

# Whether a program is there, and no source that it stands on has changed since.
is_fresh() {
    [ -x "$1" ] && [ -z "$(cd "$top" && find crates.txt $(names | sed 's,^,crates/,') \( -name out -o -name must-fail \) -prune \
        -o \( -name '*.rt' -o -name '*.antt' -o -name crates.txt \) -newer "$1" -print)" ]
}

# The same for the program in the repository, or else for that in the cache.
is_ready() {
    for program in "$top/crates/gaptd/out/gaptd" "$room/gaptd"; do
        if is_fresh "$program"; then return; fi
    done
    return 1
}

# Finds the cache: a folder for this repository and this user alone.
find_room() {
    for own in "${XDG_CACHE_HOME:-${HOME:-/dev/null}/.cache}/gaptd" "${TMPDIR:-/tmp}/gaptd-$(id -u)"; do
        room="$own/$(printf %s "$top" | cksum | tr ' ' -)"
        if (umask 077 && mkdir -p "$room") 2>/dev/null && [ -w "$room" ] &&
            [ -n "$(find "$own" -prune -type d -user "$(id -u)" ! -perm -020 ! -perm -002)" ]; then
            room=$(cd "$room" && pwd) && return
        fi
    done
    say "no folder for the copy of the crates can be made in ~/.cache or TMPDIR"
    return 1
}

# Waits until no other run proves, by the lock at 9. (Without flock each run has its copy, and rt lets it wait for what another proves.)
take_turn() {
    command -v flock >/dev/null || return
    if ! flock -n 9; then
        say "another run is proving: waits for it"
        flock 9 &
        child=$!
        await
    fi
    # (those of runs that were killed)
    remove "$room"/work.*
}

# What each crate's proof costs, in lines: those of its code, a thirtieth of those below it, whose statements are loaded, and a hundred more.
weigh() {
    (cd "$top" && find $(names | sed 's,.*,crates/&/src,') -name '*.rt' -exec wc -l {} +) | awk '
        function below(crate, top, words, number, sum) {
            if (!(crate in line) || (crate, top) in seen) return 0
            seen[crate, top] = 1
            for (number = split(line[crate], words, /[: ]+/); number > 1; number--) sum += below(words[number], top)
            return sum + (crate == top ? 0 : lines[crate])
        }
        NR == FNR { split($2, path, "/"); lines[path[2]] += $1; next }
        { split($0, words, /[: ]+/); line[words[1]] = $0 }
        END { for (crate in line) print crate, int(100 + lines[crate] + below(crate, crate) / 30) }
        ' - "$work/copy/crates.txt" >"$work/weights"
}

# Copies the crates, without the edits that must fail and what rt made.
copy() {
    touch "$work/begun" || return 1
    if [ -e "$top/HANDLES" ]; then cp "$top/HANDLES" "$work/copy/" || return 1; fi
    for crate in $(names); do
        mkdir -p "$work/copy/crates/$crate" || return 1
        for part in "$top/crates/$crate"/*; do
            case ${part##*/} in
                out | must-fail) ;;
                *) cp -R "$part" "$work/copy/crates/$crate/" || return 1 ;;
            esac
        done
    done
}

# Says how long the crates take that aren't done yet: a processor proves some 500 lines a minute, of four at most, and the more of them were
# proved in this run, the more its own pace counts.
estimate() {
    processors=$(getconf _NPROCESSORS_ONLN)
    awk -v seconds="$(($(date +%s) - begun))" -v processors="$processors" '
        NR == FNR { weight[$1] = $2; left += $2; crates++; next }
        { left -= weight[$1]; proved += $2 == "proved" ? weight[$1] : 0; name = $1; how = $2; done++ }
        END {
            pace = 500 * (processors < 4 ? processors : 4)
            minutes = int(left * (seconds / 60 + 5000 / pace) / (proved + 5000) + 0.5)
            some = minutes < 3 ? "a minute or two" : "some " minutes " minutes"
            at = name " (" done " of " crates ")"
            if (done) print at (how == "kept" ? ", proved before" : "") (done < crates ? ", " some " left" : "")
            else print "proves " crates " crates, which takes " some " on " processors " processors, less where some were proved here before"
        }' "$work/weights" "$work/done" | sed 's/^/gaptd.sh: /' >&2
}

# Reads what rt ci says: tells of each crate when it is done, and shows what isn't as it should be.
tell() {
    part=''
    while IFS= read -r line; do
        name=${line#rt: }
        name=${name%% *}
        case $line in
            '== '*) part=$line ;;
            'rt: '*' NOT PROVED'*)
                printf '%s\n' "${part:+$part$newline}$line" >&2
                part='' ;;
            'rt: '*': its tests are proved') part='' ;;
            'rt: '*' is kept: '*)
                if ! grep -q proved "$work/done"; then begun=$(date +%s); fi
                echo "$name kept" >>"$work/done"
                estimate ;;
            'rt: '*' proved')
                part=''
                echo "$name proved" >>"$work/done"
                estimate ;;
            *': proved'* | 'rt: '*' ran, '* | 'rt: '*' ran ('* | 'rt: '*': its tests passed' | 'rt: ok;'* | *' passed, 0 failed') ;;
            'tests: '* | 'test '*' ... ok' | 'test result: ok.'*) ;;
            *) if [ -n "$part" ]; then part="$part$newline$line"; else printf '%s\n' "$line" >&2; fi ;;
        esac
    done
    if [ -n "$part" ]; then printf '%s\n' "$part" >&2; fi
}

# Puts the program into the repository, or where that can't be written into the cache. A source that was changed since the copy is newer.
place() {
    for program in "$top/crates/gaptd/out/gaptd" "$room/gaptd"; do
        half="$program.$$"
        if (mkdir -p "${program%/*}" && cp "$work/copy/crates/gaptd/out/gaptd" "$half" && chmod 755 "$half" &&
            touch -r "$work/begun" "$half" && mv -f "$half" "$program") 2>/dev/null; then return; fi
        rm -f "$half"
    done
    say "the program can't be put into crates/gaptd/out, nor into $room"
    return 1
}

# Proves the crates and builds the program by rt ci over a copy: it keeps each proof on this machine, for later runs and for the gate.
prove() {
    has_rt || return 1
    work="$room/work.$$"
    when_broken
    take_turn
    if is_ready; then return; fi
    begun=$(date +%s)
    # (rt ci wants the top of a repository)
    if ! { mkdir -p "$work/copy/.git" && mkfifo "$work/pipe" && : >"$work/done" && needed >"$work/copy/crates.txt" && weigh && estimate &&
        say "this can be broken off, and the next run goes on from there; ./gaptd.sh --unproved < FILE answers sooner, with nothing proved" &&
        copy; }; then
        say "the crates can't be copied to $work"
        clean
        return 1
    fi
    (cd "$work/copy" && exec rt ci) </dev/null >"$work/pipe" 2>&1 &
    child=$!
    tell <"$work/pipe"
    if await; then
        place
        status=$?
    else
        say "not all is proved: the errors are above"
    fi
    clean
    return "$status"
}

# Answers the whole input by rt try, which compiles the program with checks, runs it once and tells how it ended in the last line.
unproved() {
    has_rt && work=$(mktemp -d) || exit 125
    when_broken
    say "nothing of these replies is proved. They come all at once, in a few minutes"
    cat <&3 >"$work/input" &
    child=$!
    if ! await || [ "$(wc -c <"$work/input")" -ge 67108864 ]; then
        say "without proofs an input is read to its end first, and has less than 64 MiB"
        clean
        exit 125
    fi
    (cd "$top/crates/gaptd" && exec rt try --steps 1 --seconds 600 -- "$@") <"$work/input" 2>"$work/said" &
    child=$!
    await
    if tail -n 1 "$work/said" | grep -q '^run=ended '; then
        grep -v -E '^(interpreter|checked|races): |^run=ended ' "$work/said" >&2
    else
        cat "$work/said" >&2
        status=125
    fi
    clean
    exit "$status"
}

if [ "$1" = --unproved ]; then
    shift
    unproved "$@" 3<&0
fi
if ! is_fresh "$program"; then
    find_room || exit 125
    is_ready || prove 9>"$room/lock" || exit 125
fi
exec "$program" "$@"
