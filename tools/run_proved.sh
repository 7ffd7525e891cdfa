# Runs a program of this repository that is proved: read in by ./cherchivola and ./card, which set `root`, this repository's folder, and
# `name`, the program's crate. Where it was not proved and built, or a source is newer, that is done first, with a line for each crate on
# standard error and all else in a log. The program is code for x86-64.
#
# say: a line on standard error. run_proved: runs the program with the arguments given, in the caller's folder.

say() { printf '%s: %s\n' "$name" "$*" >&2; }

# A source that is newer than the program, if there is one; what rt keeps in the folders out/ is none.
newer() { find "$root/crates" "$root/crates.txt" -name out -prune -o -type f -newer "$program" -print | head -n 1; }

# How many crates of crates.txt the program stands on, itself among them.
count_crates() {
    NAME=$name awk '
        function visit(name,    need, k, n) {
            if (!(name in needs) || (name in seen)) return
            seen[name] = 1
            total++
            n = split(needs[name], need, " ")
            for (k = 1; k <= n; k++) visit(need[k])
        }
        { sub(/#.*/, "") }
        { at = index($0, ":") }
        at { split(substr($0, 1, at - 1), head, " "); needs[head[1]] = substr($0, at + 1) }
        END { visit(ENVIRON["NAME"]); print total + 0 }' "$root/crates.txt"
}

# Proves and builds: rt run does that, and then runs the program, here with no argument and no input. All that rt prints goes to the log;
# a line for each crate is shown. It fails unless rt came to the running.
prove() { # HOW MANY CRATES
    {
        status=0
        (cd "$root/crates/$name" && "$rt" run) </dev/null 2>&1 || status=$?
        echo "status $status"
    } | tee "$log" | {
        tried=0 crate=$name built=
        while IFS= read -r line; do
            case $line in
            'crate '*': modules '*)
                crate=${line#crate }
                crate=${crate%%:*}
                ;;
            'logic=proved '*)
                tried=$((tried + 1))
                printf '[%2d/%d] %s proved\n' "$tried" "$1" "$crate" >&2
                ;;
            'rt: the library '*' did not build'*)
                line=${line#rt: the library }
                printf '%s NOT PROVED\n' "${line%% *}" >&2
                ;;
            "rt: running out/$name"*) built=1 ;;
            esac
        done
        [ -n "$built" ]
    }
}

# Proves and builds the program, unless that is done and no source is newer.
ready() {
    program=$root/crates/$name/out/$name
    log=$root/target/$name.log
    if [ -x "$program" ] && [ -f "$program.stamp" ] && [ -z "$(newer)" ]; then
        return
    fi
    all=$(count_crates)
    mkdir -p "$root/target"
    if [ -x "$program" ]; then
        say "something was changed: of the program and the crates below it, $all in number, those concerned are proved again now"
    else
        say "a first run: the program and all crates below it, $all in number, are proved now, once. This takes a while"
    fi
    if ! prove "$all"; then
        say "proving FAILED, and nothing was run. All that was said is in $log"
        exit 1
    fi
    touch -c "$program"
    say "proved and built; it runs now"
}

run_proved() { # ARGUMENTS
    rt=$(command -v rt) || { say "rt is not on the path; it comes with the Rattle kit"; exit 2; }
    ready
    exec "$program" "$@"
}
