#!/usr/bin/env python3
"""Checks that no two crates have a module of one name.

    scripts/checks/module_names.py

Names that the kit gives count for nothing, nor do those that tell a place and not a thing: `Inner` has what only proofs cite,
`laws` the laws of a crate.
"""

import sys
from collections import defaultdict

sys.path.append(f"{sys.path[0]}/..")  # where shared/ lies
from shared.programs import TOP

GIVEN = {"lib", "main", "build", "Lib", "Answers", "Invariants", "Inner", "laws"}


def modules():
    """Each module of code, definitions and proofs: its name and its crate."""
    for folder, suffix in ("src", "rt"), ("specs", "antt"), ("proofs", "antt"):
        for path in (TOP / "crates").glob(f"*/{folder}/**/*.{suffix}"):
            yield path.stem, path.relative_to(TOP / "crates").parts[0]


def main():
    crates = defaultdict(set)
    for name, crate in modules():
        if name not in GIVEN:
            crates[name].add(crate)
    repeated = {name: sorted(those) for name, those in crates.items() if len(those) > 1}
    for name, those in sorted(repeated.items()):
        print(f"modules of one name: {name}: {', '.join(those)}", file=sys.stderr)
    if repeated:
        return 1
    print(f"module names: {len(crates)}, none in two crates")
    return 0


if __name__ == "__main__":
    sys.exit(main())
