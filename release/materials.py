"""Makes the list of software components of a release. The data about each component comes from NOTICE."""

import datetime
import json
import os
import re

import packing
from packing import VERSION


def listed(made, seconds, commit, tree):
    """Returns the list of software components of the given files, in the SPDX 2.3 format. For some components in the
    files, no licence is stated. Therefore the list gives no concluded licence for a file."""
    paths = {os.path.basename(it): it for it in made}
    day = datetime.datetime.fromtimestamp(seconds, datetime.timezone.utc)
    packages, relations, texts = [], [], {}
    for name in sorted(os.path.basename(it) for it in made):
        path = paths[name]
        key = "SPDXRef-File-" + re.sub(r"[^A-Za-z0-9.]", "-", name)
        packages.append({"SPDXID": key, "name": name, "versionInfo": VERSION, "downloadLocation": "NOASSERTION",
                         "filesAnalyzed": False, "licenseConcluded": "NOASSERTION", "licenseDeclared": "MIT",
                         "copyrightText": "Copyright (c) 2026 The authors of capn",
                         "checksums": [{"algorithm": "SHA256", "checksumValue": packing.sum_of(path)}],
                         "comment": f"made of commit {commit}, tree {tree}"})
        relations.append(("SPDXRef-DOCUMENT", "DESCRIBES", key))
    parts = {"program": [r"^capn_", r"\.tar\.gz$"], "libraries": [r"^libcapn", r"\.tar\.gz$"],
             "package for Python": [r"^python3-capn", r"\.whl$"]}
    for one in packing.components():
        key = "SPDXRef-" + re.sub(r"[^A-Za-z0-9.]", "-", one["name"])
        licence = one["License"][0]
        if licence.startswith("LicenseRef-"):
            texts[licence] = one["Upstream"][0]
        packages.append({"SPDXID": key, "name": one["name"], "versionInfo": one["version"] or "NOASSERTION",
                         "downloadLocation": "NOASSERTION", "filesAnalyzed": False, "licenseConcluded": licence,
                         "licenseDeclared": licence, "comment": " ".join(one.get("Note", [])),
                         "copyrightText": "\n".join("Copyright " + it if it != "none is stated" else "NONE"
                                                    for it in one["Copyright"])})
        for part in one["Linked into"][0].split(", "):
            for name in sorted(os.path.basename(it) for it in made):
                if any(re.search(it, name) for it in parts[part]):
                    above = "SPDXRef-File-" + re.sub(r"[^A-Za-z0-9.]", "-", name)
                    if (above, "CONTAINS", key) not in relations:
                        relations.append((above, "CONTAINS", key))
    whole = {
        "spdxVersion": "SPDX-2.3", "dataLicense": "CC0-1.0", "SPDXID": "SPDXRef-DOCUMENT",
        "name": f"capn-{VERSION}",
        "documentNamespace": f"urn:capn:{VERSION}:{commit}",
        "creationInfo": {"created": f"{day:%Y-%m-%dT%H:%M:%SZ}", "creators": ["Tool: release/dist of capn"]},
        "packages": packages,
        "relationships": [{"spdxElementId": a, "relationshipType": b, "relatedSpdxElement": c}
                          for a, b, c in relations],
        "hasExtractedLicensingInfos": [{"licenseId": key, "extractedText": text, "name": key}
                                       for key, text in sorted(texts.items())],
    }
    return json.dumps(whole, indent=1, sort_keys=True) + "\n"
