"""What the program holds, compiled: the crates of the kit that tools/debian/copyright lists, and a bill of them (SPDX 2.3)."""
from __future__ import annotations

import hashlib
import json
import os
import re
from datetime import datetime
from typing import Any, NamedTuple

from lib import repository as repo

COPYRIGHT = "tools/debian/copyright"
NOT_TOLD = "NOASSERTION"  # as SPDX has it


class Crate(NamedTuple):
    """A crate of the kit: its name there, the crate of Rust that it is after with its version, who holds it, and the licence."""

    name: str
    after: str
    holders: list[str]
    license: str


def stanzas() -> list[dict[str, str]]:
    """The paragraphs of the list, by their fields."""
    parts = repo.text_of(COPYRIGHT).strip().split("\n\n")
    return [dict(field.split(":", 1) for field in re.split(r"\n(?! )", part)) for part in parts]


def crates() -> list[Crate]:
    """The crates that are listed."""
    found = []
    for fields in stanzas():
        path = fields.get("Files", "").strip()
        if path.startswith("kit/"):
            holders = [it.strip() for it in fields["Copyright"].strip().split("\n")]
            found.append(Crate(path.split("/")[1], fields["Comment"].strip(), holders, fields["License"].strip()))
    return found


def text_of_license(name: str) -> str:
    """The text of a licence in the list, in one line."""
    text = next(it["License"] for it in stanzas() if "Files" not in it and it.get("License", "").split("\n")[0].strip() == name)
    return " ".join(text.replace("\n .\n", "\n").split()[1:])


def described(crate: Crate) -> dict[str, Any]:
    """A crate as a package of SPDX."""
    after, _, version = crate.after.partition(" ")
    return {
        "SPDXID": f"SPDXRef-crate-{crate.name.replace('_', '-')}", "name": crate.name, "versionInfo": version or NOT_TOLD, "downloadLocation": NOT_TOLD,
        "filesAnalyzed": False, "licenseConcluded": crate.license, "licenseDeclared": crate.license, "copyrightText": "\n".join(crate.holders),
        "sourceInfo": f"of the Rattle kit, after the Rust crate {after}",
    }


def archive(path: str, version: str) -> dict[str, Any]:
    """An archive of a release as a package of SPDX."""
    with open(path, "rb") as file:
        digest = hashlib.sha256(file.read()).hexdigest()
    name = os.path.basename(path)
    return {
        "SPDXID": "SPDXRef-" + re.sub(r"[^A-Za-z0-9.]", "-", name), "name": name, "versionInfo": version, "downloadLocation": NOT_TOLD, "filesAnalyzed": False,
        "licenseConcluded": NOT_TOLD, "licenseDeclared": "NONE", "copyrightText": NOT_TOLD, "checksums": [{"algorithm": "SHA256", "checksumValue": digest}],
    }


def relations(archives: list[dict[str, Any]], linked: list[dict[str, Any]]) -> list[dict[str, str]]:
    """That the bill is of the archives, and which of them hold the crates: those for Debian, which have the program."""
    found = [("SPDXRef-DOCUMENT", "DESCRIBES", it["SPDXID"]) for it in archives]
    found += [(it["SPDXID"], "STATIC_LINK", crate["SPDXID"]) for it in archives if it["name"].endswith(".deb") for crate in linked]
    return [{"spdxElementId": one, "relationshipType": kind, "relatedSpdxElement": other} for one, kind, other in found]


def bill(paths: list[str], version: str, commit: str, when: datetime) -> bytes:
    """The bill of a release's archives, made of a commit at a time."""
    archives, linked = [archive(path, version) for path in paths], [described(crate) for crate in crates()]
    document = {
        "spdxVersion": "SPDX-2.3", "dataLicense": "CC0-1.0", "SPDXID": "SPDXRef-DOCUMENT", "name": f"gavyreto-{version}",
        "documentNamespace": f"https://users.noreply.gavyreto.example/spdx/gavyreto-{version}-{commit}",
        "creationInfo": {"created": f"{when:%Y-%m-%dT%H:%M:%SZ}", "creators": ["Tool: tools/release"], "comment": f"kit {repo.kit().decode().strip()}"},
        "packages": archives + linked, "relationships": relations(archives, linked),
    }
    return (json.dumps(document, indent=2, ensure_ascii=False) + "\n").encode()
