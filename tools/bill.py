#!/usr/bin/env python3
"""bill.py print: prints the bill of materials of a release, as SPDX 2.3 in JSON.

It has what is built here, with its sums, and the crates of the kit that are compiled in. The version of a crate is that of the Rust crate that
it is a port of, as the kit's pages say, and else that of the kit; the licence is what the same page says. release.py puts the bill into the
archive and beside it. The same files and tools make the same bill, byte for byte."""
import datetime
import hashlib
import json
import os
import re
import sys

import built
import release

NAME = "larboardyuzu.spdx.json"
# The home of the documents, a name that is reserved for examples until the project has one.
HOME = "https://larboardyuzu.example"
LICENCES = {"MIT": "MIT", "Apache 2.0": "Apache-2.0", "Apache-2.0": "Apache-2.0", "BSL-1.0": "BSL-1.0", "Unlicense": "Unlicense"}


def readme(crate):
    """The page of a crate of the kit, in one line, or nothing where it has none."""
    path = f"{built.kit()}/rattle/{crate}/README.md"
    return " ".join(built.kit_file(f"rattle/{crate}/README.md").split()) if os.path.isfile(path) else ""


def version_of_kit():
    """The name of the kit, as `rt version` prints it."""
    return built.kit_file("KIT-ID").split()[0]


def ported(crate, crates):
    """The name and version of the Rust crate that a crate is a port of, by its own page or another one of the kit, or None."""
    name = re.escape(crate).replace("_", "[-_]")
    pages = [readme(crate), *(readme(it) for it in crates)]
    return next((found.groups() for page in pages if (found := re.search(rf"\b({name}(?:2|_builder)?)`? (\d+\.\d+\.\d+)\b", page))), None)


def licence(crate):
    """The licences that the page of a crate names, in SPDX's words."""
    words = "|".join(map(re.escape, LICENCES))
    found = re.search(rf"\((({words})(?:(?:,| or) (?:{words}))*)\b", readme(crate))
    names = [LICENCES[it] for it in re.findall(words, found[1])] if found else []
    return " OR ".join(names) or "NOASSERTION"


def key(kind, name):
    return f"SPDXRef-{kind}-{re.sub(r'[^A-Za-z0-9.]+', '-', name)}"


def package_of(crate, crates):
    """A crate of the kit as a package."""
    port, kit = ported(crate, crates), version_of_kit()
    source = f"a port to Rattle of the Rust crate {port[0]} {port[1]}" if port else "a crate of the kit's own"
    texts = sorted(it for it in os.listdir(f"{built.kit()}/rattle/{crate}") if it.startswith("LICENSE"))
    notices = f"NOTICES.txt has its {' and '.join(texts)}" if texts else "it comes without a notice"
    return {"SPDXID": key("Crate", crate), "name": crate, "versionInfo": port[1] if port else kit, "supplier": "NOASSERTION",
            "downloadLocation": "NOASSERTION", "filesAnalyzed": False, "licenseConcluded": "NOASSERTION", "licenseDeclared": licence(crate),
            "licenseComments": notices, "copyrightText": "NOASSERTION", "sourceInfo": f"{source}, from {kit}"}


def file_of(it):
    """What is built as a file, with its sums."""
    with open(it.at(), "rb") as file:
        data = file.read()
    sums = [{"algorithm": name, "checksumValue": hashlib.new(name.lower(), data).hexdigest()} for name in ("SHA1", "SHA256")]
    return {"SPDXID": key("File", it.name), "fileName": f"./{it.name}", "checksums": sums, "fileTypes": ["BINARY"],
            "licenseConcluded": "NOASSERTION", "copyrightText": "NOASSERTION"}


def relation(one, kind, other):
    return {"spdxElementId": one, "relationshipType": kind, "relatedSpdxElement": other}


def bill():
    """The bill as a dictionary."""
    here, own = built.built(), key("Package", "larboardyuzu")
    crates = built.kit_crates(here)
    made = datetime.datetime.fromtimestamp(release.epoch(), datetime.timezone.utc).strftime("%Y-%m-%dT%H:%M:%SZ")
    relations = [relation("SPDXRef-DOCUMENT", "DESCRIBES", own), *(relation(own, "CONTAINS", key("File", it.name)) for it in here)]
    relations += [relation(key("File", it.name), "STATIC_LINK", key("Crate", crate)) for it in here for crate in built.kit_crates([it])]
    own_package = {"SPDXID": own, "name": "larboardyuzu", "versionInfo": built.version(), "supplier": "NOASSERTION",
                   "downloadLocation": "NOASSERTION", "filesAnalyzed": False, "licenseConcluded": "NOASSERTION", "licenseDeclared": "NONE",
                   "copyrightText": "NOASSERTION", "comment": release.NO_LICENCE}
    return {"spdxVersion": "SPDX-2.3", "dataLicense": "CC0-1.0", "SPDXID": "SPDXRef-DOCUMENT", "name": release.name_of_release(),
            "documentNamespace": f"{HOME}/spdx/{release.name_of_release()}-{release.sum_of_sources()}",
            "creationInfo": {"created": made, "creators": ["Tool: larboardyuzu-bill.py"]},
            "packages": [own_package, *(package_of(it, crates) for it in crates)], "files": [file_of(it) for it in here],
            "relationships": relations}


def text():
    """The bill as text, without the line feed at its end."""
    return json.dumps(bill(), indent=1, ensure_ascii=False)


def main(words):
    if words != ["print"]:
        print(__doc__.strip(), file=sys.stderr)
        return 2
    print(text())
    return 0


if __name__ == "__main__":
    sys.exit(main(sys.argv[1:]))
