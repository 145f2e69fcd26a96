#!/usr/bin/env bash
# Runs the commands that the pages show, as they are written, from the root of a copy in which nothing is built but the proved program and
# the proved library. A command is a line that is indented by four blanks and begins with one of the words below; one whose comment begins
# with 'long:' is not run. Each page has a copy of its own, so that it cannot stand on what another page built.
set -euo pipefail
root=$(unset CDPATH && cd "$(dirname "${BASH_SOURCE[0]}")/../.." && pwd)
proved=(crates/prettavorn/out/prettavorn crates/doors/out/libdoors.a)
room=$(mktemp -d)
trap 'rm -rf "$room"' EXIT
cd "$root"

# The programs are only tried here, so they are compiled quickly.
export CARGO_PROFILE_RELEASE_OPT_LEVEL=1 CARGO_PROFILE_RELEASE_LTO=off CARGO_PROFILE_RELEASE_CODEGEN_UNITS=16

for file in "${proved[@]}"; do
    [ -e "$file" ] || { echo "commands.sh: $file is not there; .ci/run makes it" && exit 1; }
done

commands_of() {
    sed -nE 's/^    ((\(cd |\.\/|bash |cargo |echo |host\/|printf |rt ).*)$/\1/p' "$1"
}

# What was proved is copied and marked as built: to prove it again would take minutes.
copy_to() {
    mkdir -p "$1/target"
    tar --exclude=target --exclude=out --exclude=.git -c . | tar -C "$1" -x
    tar -c "${proved[@]}" | tar -C "$1" -x
    touch "$1/target/prettavorn.stamp"
}

# A line for each command of a page: passed, FAILED or long, with what a failed one said; and at the page's end, done.
try_page() {
    local page=$1 copy=$room/${1//\//-} command
    while IFS= read -r command; do
        if [[ $command = *'# long:'* ]]; then
            echo "long $command"
            continue
        fi
        [ -d "$copy" ] || copy_to "$copy"
        if (cd "$copy" && exec bash -o pipefail -c "$command") </dev/null >"$copy.log" 2>&1; then
            echo "passed $command"
        else
            printf 'FAILED with %s, on %s: %s\n' $? "$page" "$command"
            tail -n 20 "$copy.log"
        fi
    done < <(commands_of "$page")
    rm -rf "$copy"
    echo "done $page"
}

# Four pages at a time, since most of it is the building of host programs.
pages=0
for page in README.md docs/*.md examples/*.md host/*/README.md; do
    [ "$((pages += 1))" -le 4 ] || wait -n
    try_page "$page" >"$room/${page//\//-}.said" &
done
wait

cat "$room"/*.said >"$room/said"
[ -z "${SHOW:-}" ] || cat "$room/said"
grep -vE '^(passed|long|done) ' "$room/said" || true
count() { grep -c "^$1 " "$room/said" || true; }
printf 'commands.sh: %s passed, %s failed, %s long ones not run\n' "$(count passed)" "$(count FAILED)" "$(count long)"
[ "$(count FAILED)" -eq 0 ] && [ "$(count 'done')" -eq "$pages" ]
