"""What is inside of a release: the page on it, with the licences of what was linked, and the lists
that its formats want."""

import glob
import json
import os
import re
import subprocess
from xml.sax.saxutils import quoteattr

import linking
import packing
import proving
from linking import TOP

LICENCE = re.compile(r"\(([^()`]*?)[,;]? `LICENSE")
SYSTEM = {
    "glibc/copyright": "/usr/share/doc/libc6/copyright",
    "glibc/LGPL-2.1": "/usr/share/common-licenses/LGPL-2.1",
}
NO_LICENCE = "No licence has been chosen for mos65 itself yet.\n"
COPYRIGHT = f"{NO_LICENCE}CONTENTS.md names the licences of what it was linked from; the folder licences has them.\n"
PAGE = """# What is in mos65 {version}

Made from the commit {commit} of {date}. {own}

| File | What it has |
|---|---|
| `mos65-{version}-x86_64-linux.tar.gz` | `bin`: the program, which needs no library. `include`, `lib`: the library for C, as an archive. `share`: a page for man, completions for bash. `docs`, `examples`, `editors`, `playground` as in the repository. `licences`: those of what is named below |
| `mos65-{version}-x86_64-linux-objects.tar.gz` | the object of the program and the kit's two archives, with the command that links them with another C library |
| `mos65_{version}_amd64.deb` | the same as the first, for Debian and what is made from it |
| `mos65-{version}-py3-none-manylinux_2_17_x86_64.whl` | the package for Python, with the library in it |
| `mos65-{version}.tar.gz` | the sources of that package, for any platform; it needs the library or the program |
| `mos65-{version}.vsix` | the extension for VS Code |
| `mos65-{version}.html` | the playground: a page with the proved engine in it, which needs no other file |
| `SHA256SUMS` | the checksums of all files |

The program has the words `(commit {short})` in place of `(not a release build)`; its object is else the one that was built once it was proved.

## What was linked

The program and the library are linked from the crates of the repository, and from these of the Rattle kit, with the licences that the kit states. A crate without one has no file of a licence in the kit.

| Crate of the kit | In | Licence as the kit states it |
|---|---|---|
{rows}
| the kit's archives `libos_c.a`, `liblibc_c.a` | program, library | none is stated |
| {glibc} | program | LGPL-2.1 or later; the second archive above has what it takes to link the program with another |
| libgcc, of {gcc} | program | GPL-3.0 with the GCC Runtime Library Exception 3.1 |
"""
TYPES = """<?xml version="1.0" encoding="utf-8"?>
<Types xmlns="http://schemas.openxmlformats.org/package/2006/content-types">
  <Default Extension=".json" ContentType="application/json"/>
  <Default Extension=".js" ContentType="application/javascript"/>
  <Default Extension=".md" ContentType="text/markdown"/>
  <Default Extension=".png" ContentType="image/png"/>
  <Default Extension=".vsixmanifest" ContentType="text/xml"/>
</Types>
"""
MANIFEST = """<?xml version="1.0" encoding="utf-8"?>
<PackageManifest Version="2.0.0" xmlns="http://schemas.microsoft.com/developer/vsx-schema/2011">
  <Metadata>
    <Identity Language="en-US" Id={name} Version={version} Publisher={publisher}/>
    <DisplayName>{title}</DisplayName>
    <Description xml:space="preserve">{description}</Description>
    <Categories>{categories}</Categories>
    <Properties>
      <Property Id="Microsoft.VisualStudio.Code.Engine" Value={engine}/>
    </Properties>
    <Icon>extension/{icon}</Icon>
  </Metadata>
  <Installation>
    <InstallationTarget Id="Microsoft.VisualStudio.Code"/>
  </Installation>
  <Dependencies/>
  <Assets>
{assets}
  </Assets>
</PackageManifest>
"""

ASSETS = {
    "Microsoft.VisualStudio.Code.Manifest": "package.json",
    "Microsoft.VisualStudio.Services.Content.Details": "README.md",
    "Microsoft.VisualStudio.Services.Content.Changelog": "CHANGELOG.md",
    "Microsoft.VisualStudio.Services.Content.License": "LICENSE",
}
ICON = "Microsoft.VisualStudio.Services.Icons.Default"


def kit_crates(name):
    """The kit's crates below a crate of the repository."""
    kit, crates = linking.kit_folder(), proving.read_crates()
    rows = [it.row.partition(":")[2].split() for it in [*crates[name].below, crates[name]]]
    left, found = ["std", *(it for row in rows for it in row if it not in crates)], set()
    while left:
        it = left.pop()
        if it not in found:
            found.add(it)
            with open(f"{kit}/rlibs/{it}.rlib/format", encoding="utf-8") as text:
                left += re.findall(r"^dep (\w+)$", text.read(), re.M)
    return found


def licence_files(crate):
    """The files of licences that the kit has for a crate."""
    return sorted(glob.glob(f"{linking.kit_folder()}/rattle/{crate}/LICENSE*"))


def stated(crate):
    """The licence of a crate, as the kit's page on it states it, or else by the names of its
    files."""
    files = [os.path.basename(it) for it in licence_files(crate)]
    if not files:
        return "none is stated"
    with open(f"{linking.kit_folder()}/rattle/{crate}/README.md", encoding="utf-8") as it:
        found = [it for it in LICENCE.findall(it.read()) if it]
    return "; ".join(found) if found else f"the files {', '.join(files)}"


def users():
    """Each of the kit's crates, with what was linked from it."""
    parts = {"program": kit_crates("mos65"), "library": kit_crates("mos65_c")}
    crates = sorted(set().union(*parts.values()))
    return {it: ", ".join(part for part, names in parts.items() if it in names) for it in crates}


def licences():
    """The files of all licences, by paths."""
    found = {f"{it}/{os.path.basename(file)}": packing.read(file) for it in users()
             for file in licence_files(it)}
    here = {path: file for path, file in SYSTEM.items() if os.path.exists(file)}
    return {**found, **{path: packing.read(file) for path, file in here.items()}}


def first_line(*words):
    ran = subprocess.run(words, capture_output=True, text=True)
    return ran.stdout.split("\n")[0]


def page(release):
    """The page on what is inside of a release."""
    rows = [f"| `{it}` | {where} | {stated(it)} |" for it, where in users().items()]
    libc = re.search(r"\((.*?)\)|([\d.]+)$", first_line("ldd", "--version"))
    has_licence = os.path.exists(f"{TOP}/LICENSE")
    return PAGE.format(
        version=release.version, commit=release.commit, short=release.commit[:12],
        rows="\n".join(rows),
        date=first_line("git", "-C", TOP, "log", "-1", "--format=%cs"),
        own="The file LICENSE has its licence." if has_licence else NO_LICENCE.strip(),
        glibc=f"the GNU C library, {libc[1] or libc[2]}" if libc else "the C library",
        gcc=first_line(*linking.compiler(), "--version"))


def vsix_manifest(package, texts):
    """The manifest of an extension for VS Code, from its package.json and the texts that are
    added."""
    it = json.loads(package)
    quoted = {key: quoteattr(it[key]) for key in ("name", "version", "publisher")}
    here = {**{kind: name for kind, name in ASSETS.items() if name != "LICENSE" or name in texts},
            ICON: it["icon"]}
    assets = [f"""    <Asset Type="{kind}" Path="extension/{name}" Addressable="true"/>""" for kind,
              name in here.items()]
    return MANIFEST.format(
        **quoted, title=it["displayName"], description=it["description"], icon=it["icon"],
        categories=",".join(it["categories"]), engine=quoteattr(it["engines"]["vscode"]),
        assets="\n".join(assets))
