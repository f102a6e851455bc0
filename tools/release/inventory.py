"""The list of what is in a release, in the form of SPDX 2.3: the package, the kit's libraries that its programs are
built of, and each file with its sums."""
import hashlib
import os
import re
import time

HEAD = """SPDXVersion: SPDX-2.3
DataLicense: CC0-1.0
SPDXID: SPDXRef-DOCUMENT
DocumentName: {name}
DocumentNamespace: https://geyserpan.invalid/spdx/{name}-{commit}
Creator: Tool: tools/release/make
Created: {created}

PackageName: geyserpan
SPDXID: SPDXRef-geyserpan
PackageVersion: {version}
PackageDownloadLocation: NOASSERTION
FilesAnalyzed: true
PackageVerificationCode: {code}
PackageLicenseConcluded: NONE
PackageLicenseDeclared: NONE
PackageCopyrightText: NOASSERTION
Relationship: SPDXRef-DOCUMENT DESCRIBES SPDXRef-geyserpan
"""
LIBRARY = """
PackageName: {name}
SPDXID: SPDXRef-kit-{mark}
PackageVersion: {kit}
PackageDownloadLocation: NOASSERTION
FilesAnalyzed: false
PackageLicenseConcluded: NOASSERTION
PackageLicenseDeclared: NOASSERTION
PackageCopyrightText: NOASSERTION
Relationship: SPDXRef-geyserpan CONTAINS SPDXRef-kit-{mark}
"""
FILE = """
FileName: ./{path}
SPDXID: SPDXRef-file-{number}
FileChecksum: SHA1: {sha1}
FileChecksum: SHA256: {sha256}
LicenseConcluded: NONE
LicenseInfoInFile: NONE
FileCopyrightText: NOASSERTION
"""


def kit_libraries(crates_text):
    """The libraries of the kit that crates.txt names."""
    rows = [line.split() for line in crates_text.splitlines() if line.strip() and not line.startswith("#")]
    ours = {row[0].rstrip(":") for row in rows}
    named = {name for row in rows for name in row[1:] if re.fullmatch(r"\w+", name)}
    return sorted(named - ours | {"std"})


def inventory(room, paths, about, crates_text):
    """The text of the list: `about` has the release's name, version, commit, kit and time."""
    sums = []
    for path in paths:
        with open(os.path.join(room, path), "rb") as file:
            data = file.read()
        sums.append((path, hashlib.sha1(data).hexdigest(), hashlib.sha256(data).hexdigest()))
    code = hashlib.sha1("".join(sorted(it[1] for it in sums)).encode()).hexdigest()
    created = time.strftime("%Y-%m-%dT%H:%M:%SZ", time.gmtime(about["time"]))
    parts = [HEAD.format(code=code, created=created, **about)]
    parts += [LIBRARY.format(name=it, mark=it.replace("_", "-"), kit=about["kit"])
              for it in kit_libraries(crates_text)]
    parts += [FILE.format(path=path, number=number, sha1=sha1, sha256=sha256)
              for number, (path, sha1, sha256) in enumerate(sums, 1)]
    return "".join(parts)
