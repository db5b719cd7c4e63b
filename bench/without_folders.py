#!/usr/bin/env python3
"""Takes out of the plain source of `store` what opens a folder, and with it the crates of files: without_folders.py FOLDER."""
import pathlib
import re
import sys

# Names of the crates of files and of what stands on them, and texts, which no program here needs.
FILES = r"\b(Files|FileDisk|FoundLogs|Limit|Newest|Expected|Refused|unopened_by|check_time|expected_by|default_limit|limit_by|refusal_of|String|LogFiles|FolderStore)\b"

folder = pathlib.Path(sys.argv[1])
for path in sorted(folder.glob("*.rs")):
    text = path.read_text(encoding="utf-8")
    # Calls, functions and blocks of methods whose head has such a name; a head ends where a body begins.
    for indent in ["", "    "]:
        text = re.sub(
            rf"(?ms)^{indent}(?:pub(?:\(crate\))? )?(?:impl|fn)\b(?:(?!^{indent}\S).|^{indent}[>){{])*?\{{\n.*?^{indent}\}}\n",
            lambda found: "" if re.search(FILES, found[0].split("{\n", 1)[0]) else found[0],
            text,
        )
    text = re.sub(r"(?m)^(pub )?use (shim::(fs::File|random::RandomSource|rt::Files)|filedisk::\w+|host_files::[^;]+);\n", "", text)
    text = re.sub(r"(?ms)^(///[^\n]*\n)*(#\[[^\n]*\n)*pub (type FolderStore\b[^;]*;|struct LogFiles\b.*?^\})\n", "", text)
    text = re.sub(r"\b(LogFiles|FolderStore), ", "", text)
    text = re.sub(r"(?m)^pub use timed::[^;]+;\n", "", text)
    text = re.sub(r"(?m)^use crate::timed::\{check_time, expected_by\};\n", "", text)
    text = re.sub(r"(?m)^use crate::timed::[^;]*lead_by[^;]*;", "use crate::timed::lead_by;", text)
    text = text.replace(", push_clients", "")
    path.write_text(text, encoding="utf-8")
