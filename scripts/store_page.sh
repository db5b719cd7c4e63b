#!/usr/bin/env bash
# Checks docs/STORE.md against the sources of the crate store: each public call stands on the page as `Type::call`, and each call on it is one.
set -euo pipefail
cd "$(dirname "$0")/.."
python3 - <<'END'
import pathlib, re, sys

TYPES = ("Store", "Client", "Transaction", "View", "Typed")
source = "\n".join(path.read_text() for path in sorted(pathlib.Path("crates/store/src").glob("*.rt")))
# A head whose parameters take several lines is one line here.
source = re.sub(r"(?ms)^impl<\n.*?^> ", "impl ", source)
exported = set(re.findall(r"\w+", " ".join(re.findall(r"^pub use [^;]+;", pathlib.Path("crates/store/src/lib.rt").read_text(), re.M))))

calls, owner = set(), None
for line in source.splitlines():
    if re.match(r"(?:pub )?(?:impl|trait)\b", line):
        while line != (flat := re.sub(r"<[^<>]*>", "", line)):
            line = flat
        named = re.match(r"(?:pub )?(?:impl|trait) ?(\w+)", line)[1]
        # A store in a folder is a store.
        named = "Store" if named == "FolderStore" else named
        owner = named if named in exported and " for " not in line else None
    elif line.startswith("}"):
        owner = None
    elif owner and (call := re.match(r"    pub fn (\w+)", line) or (owner == "Typed" and re.match(r"    fn (\w+)", line))):
        calls.add(f"{owner}::{call[1]}")
    elif call := re.match(r"pub fn (\w+)", line):
        if call[1] in exported:
            calls.add(call[1])

page = pathlib.Path("docs/STORE.md").read_text()
named = set(re.findall(rf"`((?:{'|'.join(TYPES)}|Options)::[a-z]\w*)`", page))
fields = {f"Options::{field}" for field in re.findall(r"^    pub (\w+):", pathlib.Path("crates/store/src/options.rt").read_text(), re.M)}
missing = sorted(call for call in calls if f"`{call}`" not in page)
strange = sorted(named - calls - fields)
for call in missing:
    print(f"docs/STORE.md: does not name {call}")
for call in strange:
    print(f"docs/STORE.md: {call} is no public call of the crate store")
print(f"{len(calls)} calls")
sys.exit(bool(missing or strange))
END
