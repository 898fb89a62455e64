#!/bin/sh
# Two misuses of a hold are refused when a program is checked: letting one go, and ending one twice.
# The small program below is proved as it is, and with each edit it has that error and no other.
set -eu
here=$(cd "$(dirname "$0")" && pwd)
work=$(mktemp -d)
trap 'rm -rf "$work"' EXIT

# The crates under a crate, each after those that it depends on; a library of the kit is no crate here.
under() {
    for d in $(sed -n "s/^$1: *//p" "$here/crates.txt"); do
        [ -d "$here/crates/$d" ] || continue
        under "$d"
        printf '%s\n' "$d"
    done | awk '!seen[$0]++'
}

# A repository of the program and the crates that it stands on.
mkdir -p "$work/crates/holder/src"
for name in $(under book) book; do
    cp -R "$here/crates/$name" "$work/crates/$name"
    grep "^$name:" "$here/crates.txt" >>"$work/crates.txt"
done
echo 'holder: book' >>"$work/crates.txt"

# The program, with what it does to the hold.
program() {
    cat >"$work/crates/holder/src/lib.rt" <<P
#![tactic(auto)]

use book::Book;
use book::Refused;

pub fn hold_and_lift(b: &mut Book) {
    let Ok(h) = b.hold(0) else {
        return;
    };
$1
}

fn end(r: Result<(), Refused>) {
    if let Err(e) = r {
        let Refused { refusal: _, hold } = e;
        hold.discard();
    }
}
P
}

# The errors of a check, each once, or 'proved'.
check() {
    if out=$(cd "$work/crates/holder" && rt check 2>&1 </dev/null); then
        echo proved
    else
        printf '%s\n' "$out" | grep -o 'error\[[a-z0-9-]*\]' | sort -u | tr '\n' ' ' | sed 's/ $//'
    fi
}

expect() {
    got=$(check)
    if [ "$got" != "$2" ]; then
        printf 'misuse: %s: expected %s, got %s\n' "$1" "$2" "${got:-something else}"
        exit 1
    fi
    printf 'misuse: %s: %s\n' "$1" "$got"
}

program '    end(b.lift(h));'
expect 'a hold that is lifted' proved
program '    let _kept = &h;'
expect 'a hold that is let go' 'error[linear-value-let-go]'
program '    end(b.lift(h));
    end(b.lift(h));'
expect 'a hold that is ended twice' 'error[borrow-e0382]'
