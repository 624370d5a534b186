#!/usr/bin/env python3
"""Says where the utility programs of crates/edi_utils/src/utilities.rt differ from those of examples/utilities."""
import pathlib
import re
import sys

code = pathlib.Path("crates/edi_utils/src/utilities.rt").read_text(encoding="utf-8")
texts = {name.lower(): text for name, text in re.findall(r'^const (\w+): &str = r#"(.*?)"#;$', code, re.M | re.S)}
files = {path.stem: path.read_text(encoding="utf-8") for path in pathlib.Path("examples/utilities").glob("*.edison")}
wrong = sorted(name for name in texts.keys() | files.keys() if texts.get(name) != files.get(name))
for name in wrong:
    print(f"the utility {name} of edi_utils is not examples/utilities/{name}.edison")
sys.exit(1 if wrong else 0)
