#!/usr/bin/env python3
"""What a release is made of, as SPDX 2.3, and the sums of its files: sbom.py OUT

It writes wkt-proved-VERSION.spdx.json and SHA256SUMS, beside the archive that release.sh has made in OUT. The first has
each file that is released, and whose code is in it: that of this repository, which is a port of a Rust crate, and that
of the Rattle toolchain's library (dist/NOTICE). Its bytes depend on these files alone; its time is theirs.
"""
import glob
import hashlib
import json
import os
import re
import sys
import tarfile
import time
import uuid

TOP = os.path.dirname(os.path.dirname(os.path.abspath(__file__)))
OWN = "MIT OR Apache-2.0"
KINDS = (".tar.gz", ".whl", ".tgz", ".crate", ".deb")


def package(name, version, licence, where="NOASSERTION", **more):
    """A package of the list. Which files it has isn't listed: the archives hold them."""
    return {
        "SPDXID": "SPDXRef-" + re.sub("[^A-Za-z0-9.-]", "-", name),
        "name": name,
        "versionInfo": version,
        "downloadLocation": where,
        "filesAnalyzed": False,
        "licenseConcluded": "NOASSERTION",
        "licenseDeclared": licence,
        "copyrightText": "NOASSERTION",
        **more,
    }


def sum_of(path):
    with open(path, "rb") as file:
        return hashlib.sha256(file.read()).hexdigest()


def given_out(folder):
    """The archives, wheels and packages in a folder, with their sums."""
    names = [it for it in sorted(os.listdir(folder)) if it.endswith(KINDS)]
    return [(name, sum_of(os.path.join(folder, name))) for name in names]


def kit():
    """The toolchain whose library is in the proved objects."""
    with open(os.path.join(TOP, "dist", "x86_64", "PROVENANCE"), encoding="utf-8") as file:
        return re.search(r"^kit +(.*)$", file.read(), re.M).group(1)


def document(files, version, seconds):
    archives = [
        package(name, version, OWN, checksums=[{"algorithm": "SHA256", "checksumValue": digest}])
        for name, digest in files
    ]
    theirs = package("rattle-library", kit(), "NOASSERTION", comment="Compiled into the proved objects: dist/NOTICE.")
    origin = package("wkt", "0.14.0", OWN, "https://crates.io/crates/wkt/0.14.0", comment="Ported; none of its code.")
    links = []
    for it in archives:
        links.append(("SPDXRef-DOCUMENT", "DESCRIBES", it["SPDXID"]))
        links.append((it["SPDXID"], "DESCENDANT_OF", origin["SPDXID"]))
        if not it["name"].startswith("python3-wkt_"):  # which calls the library of libwkt0
            links.append((it["SPDXID"], "CONTAINS", theirs["SPDXID"]))
    return {
        "spdxVersion": "SPDX-2.3",
        "dataLicense": "CC0-1.0",
        "SPDXID": "SPDXRef-DOCUMENT",
        "name": "wkt-proved-" + version,
        "documentNamespace": uuid.uuid5(uuid.NAMESPACE_URL, repr(files)).urn,
        "creationInfo": {
            "created": time.strftime("%Y-%m-%dT%H:%M:%SZ", time.gmtime(seconds)),
            "creators": ["Organization: the wkt developers", "Tool: packaging/sbom.py"],
        },
        "packages": [*archives, theirs, origin],
        "relationships": [
            {"spdxElementId": one, "relationshipType": kind, "relatedSpdxElement": other} for one, kind, other in links
        ],
    }


def main(folder):
    archives = glob.glob(os.path.join(folder, "wkt-proved-*.tar.gz"))
    if len(archives) != 1:
        sys.exit("sbom.py: %s has %d archives wkt-proved-*.tar.gz, and not one" % (folder, len(archives)))
    whole = os.path.basename(archives[0])[: -len(".tar.gz")]
    version = whole[len("wkt-proved-") :]
    with tarfile.open(archives[0]) as archive:
        seconds = archive.next().mtime
    files = given_out(folder)
    listed = whole + ".spdx.json"
    with open(os.path.join(folder, listed), "w", encoding="utf-8") as made:
        json.dump(document(files, version, seconds), made, indent=1)
        made.write("\n")
    with open(os.path.join(folder, "SHA256SUMS"), "w", encoding="utf-8") as sums:
        for name, digest in sorted([*files, (listed, sum_of(os.path.join(folder, listed)))]):
            sums.write("%s  %s\n" % (digest, name))


if __name__ == "__main__":
    main(sys.argv[1])
