"""What a package says of itself: its copyright file, its bill of materials (SPDX 2.3) and its changelog."""
import json
import textwrap
from datetime import datetime, timezone
from email.utils import format_datetime

MAINTAINER = "Kemtrua maintainers <maintainers@users.noreply.kemtrua.example>"
APACHE = "LICENSE-APACHE"  # (Debian has this text in /usr/share/common-licenses)


def copyright_of(licence, ours, crates, identity):
    """The project's licence, and that of each crate of the kit that is linked into the program."""
    parts = ["Kemtrua: the program qz_sched, the client, the units and the pages.\n", licence.strip(), "",
             f"Linked into /usr/bin/qz_sched are the crates {', '.join(ours)} of this project,",
             f"and these of the kit of Rattle ({identity}):", ""]
    for crate in crates:
        own = {name: text for name, text in crate.licences.items() if name != APACHE}
        said = f"{crate.name} {crate.version}".strip() + (f" ({crate.terms})" if crate.terms else "")
        parts += ["-" * 72, said, ""]
        if not crate.licences:
            parts += ["A crate of the kit's own, which comes without a licence file.", ""]
        if APACHE in crate.licences:
            parts += ["The Apache License 2.0 is in /usr/share/common-licenses/Apache-2.0; the other choice is:" if own else
                      "The Apache License 2.0 is in /usr/share/common-licenses/Apache-2.0.", ""]
        parts += [text.strip() + "\n" for text in own.values()]
    return "\n".join(parts).rstrip() + "\n"


def bill_of(version, program_digest, ours, crates, identity, moment):
    """An SPDX document: the package, and what is linked into its program."""
    def package(name, number, terms, comment):
        return {"SPDXID": f"SPDXRef-{name.replace('_', '-')}", "name": name, "versionInfo": number or "NOASSERTION", "downloadLocation": "NOASSERTION",
                "filesAnalyzed": False, "licenseConcluded": "NOASSERTION", "licenseDeclared": terms.replace(" or ", " OR ") or "NOASSERTION",
                "copyrightText": "NOASSERTION", "comment": comment}

    top = package("kemtrua", version, "MIT", f"SHA-256 of /usr/bin/qz_sched: {program_digest}")
    parts = [package(name, version, "MIT", "a crate of this project") for name in ours]
    parts += [package(crate.name, crate.version, crate.terms, f"a crate of the kit of Rattle, {identity}") for crate in crates]
    relations = [{"spdxElementId": "SPDXRef-DOCUMENT", "relationshipType": "DESCRIBES", "relatedSpdxElement": top["SPDXID"]}]
    relations += [{"spdxElementId": top["SPDXID"], "relationshipType": "STATIC_LINK", "relatedSpdxElement": part["SPDXID"]} for part in parts]
    return json.dumps({
        "spdxVersion": "SPDX-2.3", "dataLicense": "CC0-1.0", "SPDXID": "SPDXRef-DOCUMENT", "name": f"kemtrua-{version}",
        "documentNamespace": f"https://kemtrua.example/spdx/kemtrua-{version}-{program_digest[:16]}",
        "creationInfo": {"created": datetime.fromtimestamp(moment, timezone.utc).strftime("%Y-%m-%dT%H:%M:%SZ"), "creators": ["Tool: tools/package"]},
        "packages": [top, *parts], "relationships": relations}, indent=1) + "\n"


def changelog_of(version, moment):
    """A changelog in Debian's form. What changed is told by CHANGELOG.md, which is beside it."""
    date = format_datetime(datetime.fromtimestamp(moment, timezone.utc))
    return f"kemtrua ({version}) unstable; urgency=medium\n\n  * What changed is in CHANGELOG.md.gz.\n\n -- {MAINTAINER}  {date}\n"


def description():
    return textwrap.dedent("""\
        job scheduler whose answers are proved
         Kemtrua is a clustered job scheduler modelled on Quartz 2.3. It keeps jobs and
         triggers in a store of its own, in which a transaction is on the disk before
         it is answered. Nodes run commands when they are due, and make up for each
         other when one dies.
         .
         This package has the program, a hub and nodes as services, commands for
         operators, and the pages.""")
