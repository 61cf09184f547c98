"""What is linked into the program, as SPDX: which libraries of the kit, and their licences as NOTICE has them."""

import json
import re
from datetime import datetime, timezone

import kit
from crates import listed, needed
from package import output_of

# Licences as SPDX names them, by the libraries of NOTICE. Of every other one the kit states none.
LICENCES = {
    "csv": "MIT",
    "clap": "MIT OR Apache-2.0",
    "indexmap": "Apache-2.0 OR MIT",
    "smallvec": "MIT OR Apache-2.0",
    "itoa": "MIT OR Apache-2.0",
    "thiserror": "MIT OR Apache-2.0",
    "arrayvec": "MIT OR Apache-2.0",
    "memchr": "Unlicense OR MIT",
    "strsim": "MIT",
    "serde": "MIT OR Apache-2.0",
    "ryu": "(Apache-2.0 OR BSL-1.0) AND MIT",
    "fast_float": "MIT OR Apache-2.0",
    "either": "MIT OR Apache-2.0",
}
C_ARCHIVES = ("libos_c.a", "liblibc_c.a")


def linked() -> list[str]:
    """The kit's libraries below the program, and the two archives of C code."""
    crates = listed()
    names = ["std"]
    for name in needed([kit.PROGRAM], crates):
        names += [it for it in crates[name][1] if it not in crates]
    names = list(dict.fromkeys(names))
    for name in names:
        text = (kit.home() / f"rlibs/{name}.rlib/format").read_text(encoding="utf-8")
        uses = re.findall(r"^dep (\w+)$", text, re.M)
        names += [it for it in uses if it not in names]
    return [*sorted(names), *C_ARCHIVES]


def part(name: str, version: str, stated: str) -> dict[str, object]:
    return {
        "SPDXID": f"SPDXRef-{name.replace('_', '-')}",
        "name": name,
        "versionInfo": version,
        "licenseDeclared": stated,
        "licenseConcluded": "NOASSERTION",
        "copyrightText": "NOASSERTION",
        "downloadLocation": "NOASSERTION",
        "filesAnalyzed": False,
    }


def text_of(version: str, commit: str) -> str:
    """The document, whose time is that of the commit."""
    identity = (kit.home() / "KIT-ID").read_text(encoding="utf-8").split()[0]
    names = linked()
    seconds = int(output_of("git", "log", "-1", "--format=%ct"))
    day = datetime.fromtimestamp(seconds, timezone.utc)
    made = {
        "spdxVersion": "SPDX-2.3",
        "dataLicense": "CC0-1.0",
        "SPDXID": "SPDXRef-DOCUMENT",
        "name": f"basket-{version}",
        "documentNamespace": f"urn:basket:{version}:{commit}",
        "comment": f"All but basket is of {identity}; NOTICE has what it states of licences and copyright.",
        "creationInfo": {
            "created": day.strftime("%Y-%m-%dT%H:%M:%SZ"),
            "creators": ["Tool: basket-tools-sbom"],
        },
        "packages": [
            part("basket", version, "MIT OR Apache-2.0"),
            *(
                part(name, identity, LICENCES.get(name, "NOASSERTION"))
                for name in names
            ),
        ],
        "relationships": [
            {
                "spdxElementId": "SPDXRef-DOCUMENT",
                "relationshipType": "DESCRIBES",
                "relatedSpdxElement": "SPDXRef-basket",
            },
            *(
                {
                    "spdxElementId": "SPDXRef-basket",
                    "relationshipType": "STATIC_LINK",
                    "relatedSpdxElement": f"SPDXRef-{name.replace('_', '-')}",
                }
                for name in names
            ),
        ],
    }
    return json.dumps(made, indent=1) + "\n"
