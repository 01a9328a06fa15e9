# How a program or the library is proved and built. ./olivastrum, ./archive, ./check and the tests read this file; they have set `here`, the project's folder, `me`, their name, and `say`, which puts a line on standard error.
# target/built has the lock; for each program a file of its name, which is as old as the start of its last good build and says what it was made by; and what the prover said, NAME.log.
made=$here/target/built

# Where a program stands, and the library.
program() { # PROGRAM
    echo "$here/crates/$1/out/$1"
}
library=$here/crates/host_c/out/libhost_c.a

# The lines of crates.txt that a crate is made by, each crate's behind those that it sees, as rt takes them: those of all the project's crates below it, and its own.
parts() { # NAME
    awk -v name="$1" '
        function visit(crate,    below, count, i) {
            if (!(crate in sees) || visited[crate]++) return
            count = split(sees[crate], below, " ")
            for (i = 1; i <= count; i++) visit(below[i])
            print head[crate] ":" sees[crate]
        }
        { sub(/#.*/, "") }
        split($0, sides, ":") == 2 { split(sides[1], words, " "); head[words[1]] = sides[1]; sees[words[1]] = sides[2] }
        END { visit(name) }' "$here/crates.txt"
}

# Their crates alone.
crates() { # NAME
    parts "$1" | sed 's,[ :].*,,'
}

# The files and folders of these crates. What rt makes, and wrong answers, are no part of a program.
sources() { # NAME
    for crate in $(crates "$1"); do
        for entry in "$here/crates/$crate"/*; do
            case ${entry##*/} in
                out | must-fail | '*') ;;
                *) printf '%s\n' "${entry#"$here/"}" ;;
            esac
        done
    done
}

# What a program is made by: its lines of crates.txt, and what the folders of its crates have.
recorded() { # PROGRAM
    parts "$1"
    sources "$1"
}

# A file of these crates that has changed since, or a folder that lost or gained one.
changed() { # PROGRAM
    # shellcheck disable=SC2046
    (cd "$here" && find $(sources "$1") -newer "$made/$1" -print | head -n 1)
}

built() { # PROGRAM
    [ -x "$(program "$1")" ] && [ -f "$made/$1" ] && [ "$(recorded "$1")" = "$(cat "$made/$1")" ] && [ -z "$(changed "$1")" ]
}

# What building needs; and the folder for what is kept of it.
able() {
    command -v rt >/dev/null || {
        say "the command rt of the Rattle kit is not on the PATH"
        return 1
    }
    for tool in flock setsid; do
        command -v "$tool" >/dev/null || {
            say "the command $tool of util-linux is not on the PATH"
            return 1
        }
    done
    mkdir -p "$made" 2>/dev/null && [ -w "$made" ] || {
        say "$made cannot be written"
        return 1
    }
}

# One builder at a time: whoever has locked descriptor 9, which is open on the lock. The prover has it from its builder, so the lock is free as soon as all of them have ended, however they ended.
alone() {
    waits=no
    until flock -n 9; do
        # 1 says that another one has it.
        [ $? -eq 1 ] || return 1
        [ $waits = yes ] || say "waiting for another build in this folder"
        waits=yes
        sleep 1
    done
}

# ---- how far it is

# The line that moves on, on a terminal.
move() { # TEXT
    [ ${#1} -le "$width" ] || width=${#1}
    printf "\r%-${width}s" "$1" >&2 2>/dev/null || :
}

# The crates that rt took in hand and proved, or the one that it did not.
taken() { # yes|no
    awk -v proved="$1" '
        /^rt: chose --jobs [0-9]+ for / { crate = $6 }
        /^logic=proved / { if (proved == "yes" && crate != "") print crate; crate = "" }
        END { if (proved == "no" && crate != "") print crate }' "$log"
}

# What rt has proved so far. It takes the crates in their order, and says nothing of one that was proved before: how far it is, the place of the last one tells. Where there is no terminal, a line for each.
progress() {
    seconds=$(($(date +%s) - began))
    while read -r crate; do
        [ -n "$crate" ] || continue
        place=$(printf '%s\n' "$all" | grep -nx "$crate") && place=${place%%:*} || continue
        [ "$place" -gt "$count" ] || continue
        count=$place last=$crate
        [ -t 2 ] || say "proved $count of $total, $crate ($seconds s so far)"
    done <<LINES
$(taken yes)
LINES
    [ ! -t 2 ] || move "$me: proved $count of $total${last:+, $last} ($seconds s so far)"
}

# How it ended, behind the line that moved on.
close() { # TEXT
    [ "$width" -eq 0 ] || printf '\n' >&2 2>/dev/null || :
    say "$1"
}

# ---- the prover

# It is ended from outside, and the prover with it.
interrupted() { # SIGNAL
    trap '' HUP INT TERM
    kill -s TERM "${!-}" 2>/dev/null || :
    kill -s TERM -- "-${!-}" 2>/dev/null || :
    wait
    close "the build was ended; what is proved so far stays proved"
    trap - "$1"
    kill -s "$1" $$
}

# Lets rt prove a crate and all below it, and says how far it is. The prover and what it starts are a session of their own, which can be ended as a whole. `rt run` also runs what it built, here without a word and without input, and ends as that does.
prove() { # run|lib NAME
    all=$(crates "$2") log=$made/$2.log began=$(date +%s) count=0 last='' width=0 failed=0
    total=$(($(printf '%s\n' "$all" | wc -l)))
    trap 'interrupted HUP' HUP
    trap 'interrupted INT' INT
    trap 'interrupted TERM' TERM
    (cd "$here/crates/$2" && exec setsid rt "$1") >"$log" 2>&1 </dev/null &
    prover=$!
    while kill -0 "$prover" 2>/dev/null; do
        sleep 1 || :
        progress
    done
    wait "$prover" || failed=1
    if [ "$1" = run ] && grep -q "^rt: running out/$2;" "$log"; then failed=0; fi
    progress
    trap - HUP INT TERM
    if [ "$failed" -eq 0 ]; then
        close "built in $(if [ "$seconds" -ge 60 ]; then echo "$((seconds / 60)) min "; fi)$((seconds % 60)) s"
        return
    fi
    crate=$(taken no)
    close "not built${crate:+: $crate is not proved}; $log has what the prover said"
    return 1
}

# Proves and builds a program where that is not done, or something that it is made of has changed.
build() { # PROGRAM
    ! built "$1" || return 0
    able || return 1
    {
        alone || return 1
        ! built "$1" || return 0
        say "proving and building the program $1; this happens once and takes minutes"
        recorded "$1" >"$made/$1.new"
        prove run "$1" && mv "$made/$1.new" "$made/$1"
    } 9>"$made/lock"
}
