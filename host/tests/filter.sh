#!/usr/bin/env bash
# ./prettavorn as a filter: its files and options. Each case has a small clone with the program as it was proved and built here, and in place
# of rt stands a script that notes its calls and proves nothing.
# shellcheck source-path=SCRIPTDIR source=tally.sh
. "$(dirname "$0")/tally.sh"
built=$root/crates/prettavorn/out/prettavorn
night=$root/examples/night.txt
answers=$root/examples/night.out

[ -x "$built" ] || { echo "filter.sh: the program is not built; ./prettavorn builds it" && exit 1; }

make_clone() {
    mkdir -p clone/crates/prettavorn/src clone/target bin
    cp "$root/prettavorn" "$root/VERSION" "$root/crates.txt" clone
    cp "$root/crates/prettavorn/src/main.rt" clone/crates/prettavorn/src
    prettavorn=clone/prettavorn
    {
        echo '#!/bin/sh'
        echo "echo \"\$*, in \${PWD##*/}\" >>'$PWD/calls'"
        echo "mkdir -p out && cp '$built' out/prettavorn"
    } >bin/rt
    chmod +x bin/rt
    export PATH=$PWD/bin:$PATH
}

make_built_clone() {
    make_clone
    mkdir clone/crates/prettavorn/out
    cp "$built" clone/crates/prettavorn/out
    touch clone/target/prettavorn.stamp
}

expect_calls() {
    expect 'calls of rt' "$1" "$(cat calls 2>/dev/null)"
}

expect_answers() {
    cmp wrote "$answers"
    expect_end 0 ''
    expect_calls ''
}

expect_nothing_answered() {
    expect 'answers' '' "$(<wrote)"
    expect_end "$1" "$2"
    expect_calls ''
}

test_standard_input() {
    make_built_clone
    observe "$prettavorn" <"$night"
    expect_answers
}

test_file() {
    make_built_clone
    observe "$prettavorn" "$night" </dev/null
    expect_answers
}

test_dash_is_standard_input() {
    make_built_clone
    observe "$prettavorn" - <"$night"
    expect_answers
}

test_files_are_one_input() {
    make_built_clone
    head -c 100 "$night" >first
    tail -c +101 "$night" | head -c 100 >second
    tail -c +201 "$night" >third
    observe "$prettavorn" first - third <second
    expect_answers
}

test_two_dashes_end_the_options() {
    make_built_clone
    cp "$night" ./--help
    observe "$prettavorn" -- --help
    expect_answers
}

test_by_a_link() {
    make_built_clone
    ln -s clone/prettavorn link
    observe ./link "$night"
    expect_answers
}

test_last_line_without_line_feed() {
    make_built_clone
    printf '01010100010002\n03' >asked
    observe "$prettavorn" asked
    expect 'answers' '8101000000020000000100000002 830000000050' "$(tr '\n' ' ' <wrote | sed 's/ $//')"
    expect_end 0 ''
}

test_empty_input() {
    make_built_clone
    observe "$prettavorn" </dev/null
    expect_nothing_answered 0 ''
}

test_files_that_cannot_be_read() {
    make_built_clone
    mkdir folder
    observe "$prettavorn" "$night" missing folder
    expect_nothing_answered 1 $'prettavorn: missing is not there\nprettavorn: folder is a directory'
}

test_unknown_option() {
    make_built_clone
    observe "$prettavorn" "$night" --frames
    expect_nothing_answered 2 'prettavorn: --frames is not known; --help says what is'
}

test_help() {
    make_built_clone
    for word in --help -h; do
        observe "$prettavorn" "$word"
        expect_end 0 ''
        expect 'first line' 'Usage: prettavorn [FILE]...' "$(head -n 1 wrote)"
    done
}

test_help_on_a_full_disk() {
    make_built_clone
    code=0
    "$prettavorn" --help >/dev/full 2>said || code=$?
    expect 'code' 1 "$code"
}

test_version() {
    make_built_clone
    observe "$prettavorn" --version
    expect_end 0 ''
    expect 'answers' "prettavorn $(<"$root/VERSION")" "$(<wrote)"
}

# script gives it a terminal, where Ctrl-D is the byte 4. Its input stays open until the program has ended.
test_terminal() {
    if ! command -v script; then return; fi
    make_built_clone
    { await grep -qs terminal said && printf '03\n\4' && await [ -s code ]; } |
        timeout 120 script -qec "$prettavorn >wrote 2>said; echo \$? >code" /dev/null >/dev/null
    code=$(<code)
    expect 'answers' 8F0BFF "$(<wrote)"
    expect_end 0 'prettavorn: reading frames from the terminal, a line each; Ctrl-D ends them'
}

# Whatever can be said without the program is said at once.
test_not_built_and_not_needed() {
    make_clone
    for word in --help --version; do
        observe "$prettavorn" "$word"
        expect_end 0 ''
    done
    observe "$prettavorn" --what
    expect 'code' 2 "$code"
    observe "$prettavorn" missing
    expect_nothing_answered 1 'prettavorn: missing is not there'
}

test_first_use() {
    make_clone
    observe "$prettavorn" "$night"
    cmp wrote "$answers"
    expect_end 0 'prettavorn: proving and building, once'
    expect_calls 'run, in prettavorn'
    observe "$prettavorn" "$night"
    cmp wrote "$answers"
    expect_end 0 ''
    expect_calls 'run, in prettavorn'
}

tally
