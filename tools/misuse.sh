#!/usr/bin/env bash
# A finding has to be notified or set aside, once. Shows that the checker refuses one that is dropped and one
# that is used twice, each with exactly the error that says so, and takes the proper use.
set -euo pipefail
top="$(cd "$(dirname "$0")/.." && pwd)"
copy="$(mktemp -d)"
trap 'rm -rf "$copy"' EXIT
tar -C "$top" --exclude=out -cf - crates.txt crates | tar -C "$copy" -xf -
cd "$copy"
echo 'misuse: secured annex refusal' >> crates.txt
mkdir -p crates/misuse/src

# try NAME BODY: checks a function over a book, a row and a finding with this body
try() {
  cat > crates/misuse/src/lib.rt <<RT
use annex::Row;
use secured::Finding;
use secured::SecuredBook;

pub fn $1(book: &SecuredBook, row: &Row, finding: Finding) {
    $2
}
RT
  (cd crates/misuse && rt check) > "$copy/log" 2>&1 || true
}

expect() {
  if grep -q "$2" "$copy/log"; then
    echo "misuse: $1: as expected"
  else
    echo "misuse: $1: expected '$2', found:"
    tail -20 "$copy/log"
    exit 1
  fi
}

try notified_once 'let _ = book.notify(finding, row);'
expect 'a finding that is notified' '^logic=proved'
try set_aside_once 'finding.set_aside();'
expect 'a finding that is set aside' '^logic=proved'
try dropped 'let _ = finding.day();'
expect 'a finding that is dropped' 'error\[linear-value-let-go\]'
try notified_twice 'let _ = book.notify(finding, row); let _ = book.notify(finding, row);'
expect 'a finding that is notified twice' 'error\[borrow-e0382\]'
try aside_after_notifying 'let _ = book.notify(finding, row); finding.set_aside();'
expect 'a finding that is set aside after notifying' 'error\[borrow-e0382\]'
