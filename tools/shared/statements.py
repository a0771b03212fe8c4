"""What a release says of itself: what was proved (a form of our own), how it was built (SLSA) and what is in it (SPDX)."""
from __future__ import annotations

import pathlib
import re
import shutil
import time
from typing import Any

from .building import sum_of
from .compiled import FLAGS, LIBRARY, PROGRAMS, Compiled, gate_said
from .crates import Crates
from .linking import Cross, Missing, run, version

Json = dict[str, Any]
VERDICTS = ("What counts are the lines of rt ci, in 'gate': it reuses no part of a check. A line in 'compiled' is of the check over which that file "
            "was compiled, which took over what was checked before (incremental=trusted). Each rests on the contracts of the C functions in 'axioms'.")
# Names of our own in the statements.
OWN = "https://lokbrez.example/release/v1"


class Kit:
    """The toolchain: its name and its sums, and the crates of its own whose code is compiled in."""

    def __init__(self, crates: Crates) -> None:
        rt = shutil.which("rt")
        if not rt:
            raise Missing("there is no rt: its folder has the licences of the crates that are compiled in")
        self.top = pathlib.Path(rt).resolve().parents[1]
        self.name = (self.top / "KIT-ID").read_text(encoding="utf-8").strip()
        self.sums = dict(line.split() for line in (self.top / "WHAT").read_text(encoding="utf-8").splitlines())
        used = (use for row in crates.rows.values() for use in row.partition(":")[2].split())
        names = list(dict.fromkeys(["std", *(use for use in used if use not in crates.rows)]))
        for name in names:
            text = (self.top / "rlibs" / f"{name}.rlib/format").read_text(encoding="utf-8")
            names += [use for use in re.findall(r"(?m)^dep (\w+)$", text) if use not in names]
        self.crates = sorted(names)

    def licences(self, name: str) -> dict[str, bytes]:
        return {path.name: path.read_bytes() for path in sorted((self.top / "rattle" / name).glob("LICENSE*"))}


def licences(kit: Kit, with_musl: bool) -> dict[str, bytes]:
    """The notices of others whose code is compiled in, by the names that their files get."""
    found = {f"{name}-{file}": text for name in kit.crates for file, text in kit.licences(name).items()}
    if with_musl:
        found["musl-copyright"] = pathlib.Path("/usr/share/doc/musl-dev/copyright").read_bytes()
    return found


def spdx_licence(files: dict[str, bytes]) -> str:
    """The licence by the words of its files."""
    text = b"".join(files.values())
    known = {"MIT": b"Permission is hereby granted, free of charge", "Apache-2.0": b"Apache License"}
    return " OR ".join(name for name, words in known.items() if words in text) or "NOASSERTION"


def debian_packages(cross: Cross) -> list[tuple[str, str, str]]:
    """Name, version and processor of the packages of Debian from which something is linked in."""
    files = [run([cross.tool("gcc"), f"-print-file-name={name}"]).strip() for name in ("libgcc.a", "crtbeginS.o", "crti.o")]
    files.append(str(cross.musl / "libc.a"))
    owners = {line.partition(": ")[0] for line in run(["dpkg", "-S", *(str(pathlib.Path(file).resolve()) for file in files)]).splitlines()}
    text = run(["dpkg-query", "-W", "-f", "${Package} ${Version} ${Architecture}\n", *sorted(owners)])
    return [(row[0], row[1], row[2]) for row in map(str.split, text.splitlines())]


def proved(crates: Crates, kit: Kit, commit: str, subject: list[Json], crosses: dict[str, Cross], inside: list[Json]) -> Json:
    """Which files are made of which proved crate, by which compiler, and what rattle and the gate said of it."""
    products = [Compiled(name, arch).noted(crates) for arch in FLAGS for name in (*PROGRAMS, LIBRARY)]
    return statement(subject, f"{OWN}/proved", {
        "version": version(), "commit": commit, "kit": kit.name, "kit_sums": kit.sums, "gate": gate_said(crates),
        "sources": {"crates": len(crates.rows), "sha256": crates.sum(crates.rows)}, "compiled": products, "verdicts": VERDICTS,
        "linked_by": {arch: f"gcc {cross.version}" for arch, cross in crosses.items()}, "files": inside})


def statement(subject: list[Json], kind: str, text: Json) -> Json:
    """A statement in the form of in-toto, of the files of a release."""
    return {"_type": "https://in-toto.io/Statement/v1", "subject": subject, "predicateType": kind, "predicate": text}


def provenance(kit: Kit, commit: str, subject: list[Json], crosses: dict[str, Cross]) -> Json:
    """How the files were built, in the form of SLSA."""
    needs: list[Json] = [{"name": "lokbrez", "digest": {"gitCommit": commit.partition("-")[0]}},
                         {"name": kit.name, "digest": {"sha256": kit.sums["archive"]}}]
    needs += [{"uri": purl(*row)} for cross in crosses.values() for row in debian_packages(cross)]
    return statement(subject, "https://slsa.dev/provenance/v1", {
        "buildDefinition": {"buildType": OWN, "externalParameters": {"version": version(), "commit": commit},
                            "resolvedDependencies": needs},
        "runDetails": {"builder": {"id": f"{OWN}/tools/release"}}})


def purl(name: str, package_version: str, arch: str) -> str:
    return f"pkg:deb/debian/{name}@{package_version.replace('+', '%2B').replace(':', '%3A')}?arch={arch}"


def package(name: str, package_version: str, licence: str, **more: Any) -> Json:
    at = "SPDXRef-" + re.sub(r"[^A-Za-z0-9.]+", "-", f"{name}-{package_version}")
    return {"SPDXID": at, "name": name, "versionInfo": package_version, "downloadLocation": "NOASSERTION", "licenseConcluded": licence,
            "licenseDeclared": licence, "copyrightText": "NOASSERTION", "filesAnalyzed": False} | more


def contents(kit: Kit, commit: str, epoch: int, crosses: dict[str, Cross]) -> Json:
    """What is compiled and linked in, in the form of SPDX. A licence that no file names is NOASSERTION."""
    whole = package("lokbrez", version(), "Apache-2.0")
    parts = [package(f"rattle-{name}", kit.name, spdx_licence(kit.licences(name))) for name in kit.crates]
    for arch, cross in crosses.items():
        for row in debian_packages(cross):
            refers = [{"referenceCategory": "PACKAGE-MANAGER", "referenceType": "purl", "referenceLocator": purl(*row)}]
            parts.append(package(f"{row[0]}-for-{arch}", row[1], "MIT" if "musl" in row[0] else "NOASSERTION", externalRefs=refers))
    when = time.strftime("%Y-%m-%dT%H:%M:%SZ", time.gmtime(epoch))
    links = [{"spdxElementId": "SPDXRef-DOCUMENT", "relationshipType": "DESCRIBES", "relatedSpdxElement": whole["SPDXID"]}]
    links += [{"spdxElementId": whole["SPDXID"], "relationshipType": "STATIC_LINK", "relatedSpdxElement": part["SPDXID"]} for part in parts]
    return {"spdxVersion": "SPDX-2.3", "dataLicense": "CC0-1.0", "SPDXID": "SPDXRef-DOCUMENT", "name": f"lokbrez-{version()}",
            "documentNamespace": f"{OWN}/{version()}/{commit}",
            "creationInfo": {"created": when, "creators": ["Tool: lokbrez-tools-release"]},
            "packages": [whole, *parts], "relationships": links}


def subjects(out: pathlib.Path) -> list[Json]:
    return [{"name": path.name, "digest": {"sha256": sum_of(path)}} for path in sorted(out.iterdir()) if path.is_file()]
