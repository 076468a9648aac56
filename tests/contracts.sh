#!/usr/bin/env bash
# The promises of the public routines, word for word: each one's head, from its name to its body, with the definitions that it cites, is
# the text in contracts/NAME. A promise that is weakened, or that asks for something, is noticed by proved callers alone; the C functions
# have none.
set -u
cd "$(dirname "$0")/.." || exit 2
passed=0
failed=0

# The definitions that a crate cites, and a function's lines from its name up to the brace that opens the body.
promise() {
    sed -n -e '/^ghost use/p' -e "/^pub .*fn $2[(<]/,/^{\$/p" "crates/$1/src/lib.rt" | sed '$d'
}

held() {
    if diff "tests/contracts/$2" <(promise "$1" "$2"); then
        passed=$((passed + 1))
    else
        echo "contracts: $1::$2 does not promise what tests/contracts/$2 says"
        failed=$((failed + 1))
    fi
}

for routine in read find respell judge; do
    held "$routine" "$routine"
    held "capi_$routine" "mrkvandel_$routine"
done
held first_name name_part
held first_name first_name
held capi_first_name mrkvandel_first_name
echo "$passed passed, $failed failed"
[ "$failed" -eq 0 ]
