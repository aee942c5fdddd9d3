"""Checks that the version of the release is the same wherever it stands: in the manifests of the workspace and of the Rust crate, in
Cargo.lock, in the C header, and as the newest version of docs/CHANGES.md. The pkg-config files of a release are made from the same number;
tests/release compares them.

    python3 tests/versions.py"""
import pathlib
import re
import sys

ROOT = pathlib.Path(__file__).resolve().parent.parent
# Each file, and the pattern whose first match has the version.
PLACES = (
    ("Cargo.toml", r'(?s)^\[workspace\.package\].*?^version = "([\d.]+)"'),
    ("bindings/rust/Cargo.toml", r'(?s)^\[package\].*?^version = "([\d.]+)"'),
    ("Cargo.lock", r'^name = "poruwhina"\nversion = "([\d.]+)"'),
    ("include/poruwhina.h", r'^#define PW_VERSION "([\d.]+)"'),
    ("docs/CHANGES.md", r"^## ([\d.]+)"),
)


def main():
    found = {}
    for name, pattern in PLACES:
        match = re.search(pattern, (ROOT / name).read_text(encoding="utf-8"), re.M)
        found[name] = match[1] if match else "no version"
    same = len(set(found.values())) == 1 and "no version" not in found.values()
    for name, version in found.items() if not same else ():
        print(f"{name}: {version}")
    print(f"{len(found)} places of the version, {'all ' + found['Cargo.toml'] if same else 'not the same'}")
    return 0 if same else 1


if __name__ == "__main__":
    sys.exit(main())
