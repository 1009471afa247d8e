# What the rows of tests/wrapper call, in a copy of the repository whose toolchain proves nothing.

# stub FILE LINE..: makes a script of these lines
stub() { mkdir -p "$(dirname "$1")" && printf '%s\n' '#!/bin/sh' "${@:2}" >"$1" && chmod 755 "$1"; }

# A program that tells what it is given: its words, and its input with $ for the end of a line.
tells='for word; do printf "[%s]" "$word"; done; cat -A | tr -d "\n"; echo'

# program LINE..: the program is proved, and these are its lines
program() { ./listset prove 2>/dev/null && stub crates/listset/out/listset "$@"; }

# real: the program is that of the repository, proved or not: the one that was built last
real() {
    ./listset prove 2>/dev/null
    cp "$(ls -t "$TOP"/crates/listset/out/{,unproved/}listset 2>/dev/null | head -n 1)" crates/listset/out/listset
}

# proves SECONDS: proving takes so long, in a process of its own, and its calls are counted
proves() {
    local begins=('echo once >>calls' "sleep $1 &" 'echo $! >child' wait)
    stub scripts/build/prove "${begins[@]}" 'cp proved crates/listset/out/listset'
}

# Whether packages can be made on this machine.
packs() { command -v dpkg-deb && command -v objdump && command -v git; } >/dev/null

# Makes the copy. Its `rt try` tells what it is given.
copy() {
    cp -r "$TOP"/{scripts,listset,crates.txt,README.md} . && ln -s "$TOP"/{docs,page} .
    (cd "$TOP" && cp --parents crates/*/src/lib.rt crates/listset/src/* crates/ls_lexer/specs/* "$OLDPWD")
    printf 'class A { }' | tee 'a b.java' >a=b.java
    printf 'setup { }\n' | tee -- p.txt >-p.txt
    printf 'class A { }\n%%%%\nsetup { }\n' >all.txt
    printf 'setup*9\n' >s.txt && printf 'setup*9' >end.txt && : >empty
    stub bin/rt 'echo "tried: $*"; cat' && stub proved "$tells; exit 3" && proves 0
    sed -i 's/rattle-kit-[0-9a-z]*/rattle-kit-1/g' README.md && echo rattle-kit-1 >KIT-ID
}

# terminal COMMAND: what is shown where its three streams are a terminal, at which Ctrl-D is typed
terminal() {
    local spawns='import os, pty, sys; sys.exit(os.waitstatus_to_exitcode(pty.spawn(sys.argv[1:])))'
    printf '\004' | python3 -c "$spawns" "$@" >on_terminal
    local status=$?
    sed $'s/\r$//; s/\\^D\b\b//' on_terminal
    return $status
}

# Names what is shown in place: lines of progress from the second second on, and that they are gone at the end.
seen() {
    sed -E $'s/(\r(explore: (131072|196608|262144|327680) states, depth [2-5]|find: (32|48|64|80) of 84 programs)\x1b\\[K){2,4}/PROGRESS/
        s/\r\x1b\\[K/ GONE\\n/'
}

# noted COMMAND FILE..: what is told beside what the program prints: by --explain and at a terminal, else nothing
noted() {
    ./listset "$@" >printed 2>beside || echo "status $?"
    ./listset "$1" --explain "${@:2}" 2>notes | cmp - printed
    terminal ./listset "$@" | cmp - <(cat printed notes)
    cat beside notes
}

# least COMMAND: the least processor time of 40 runs, in milliseconds
least() {
    local TIMEFORMAT='%3U %3S'
    for _ in {1..40}; do { time "$@" </dev/null >/dev/null 2>&1; } 2>&1; done |
        sed 's/\.//g' | while read -r own system; do echo $((10#$own + 10#$system)); done | sort -n | head -n 1
}

# quick MOST COMMAND: tells what a command takes over its program, if in 40 tries that is always over MOST milliseconds
# and over 2 * MOST times what a shell takes that does nothing, which is more on a busy or slow machine
quick() {
    for _ in {1..40}; do
        own=$(($(least "${@:2}") - $(least crates/listset/out/listset))) shell=$(least sh -c :)
        [ $own -gt "$1" ] && [ $own -gt $((2 * $1 * shell)) ] || return 0
    done
    echo "$own ms where a shell takes $shell"
}

# Tells which program two runs are: the proved one, or one that says that it isn't.
twice() {
    for _ in 1 2; do
        said=$(echo x | ./listset check 2>&1)
        case $?,$(echo "$said" | grep -c '^listset: NOT PROVED: '),$said in
            3,0,'[check]x$') printf 'proved ' ;;
            0,1,*'tried: try --seconds 600 -- check'*x) printf 'unproved ' ;;
            *) echo "$said" ;;
        esac
    done
}

# after CHANGE: which program two runs are, before it and after it; what install does then; whether it is proved then
after() {
    twice && eval "$1" && printf '| ' && twice
    scripts/build/install to 2>/dev/null && printf '| installed' || printf '| refused'
    ./listset prove 2>/dev/null && echo ' | proved'
}
