"""The extension of Visual Studio Code as a package that an editor installs: a `.vsix`, which is a zip
archive of a manifest, the types of the files, and the files below `extension/`.

    build/extension.py FILE    writes one without a server, which takes the server on the PATH

It holds the client and the grammar of editors/. That of a release has the built server too, and so
is of one platform.
"""

import io
import json
import os
import sys
import time
import zipfile
from xml.sax.saxutils import escape, quoteattr

from repository import TOP, program_of

SOURCES = os.path.join(TOP, "editors", "vscode")
# names that Visual Studio Code has for what `uname -m` says
PLATFORMS = {"x86_64": "linux-x64", "aarch64": "linux-arm64"}
TYPES = {
    "js": "application/javascript", "json": "application/json", "md": "text/markdown", "txt": "text/plain",
    "vsixmanifest": "text/xml", "xml": "text/xml",
}
SERVER = "extension/bin/ti-lsp"
SCHEMA = "http://schemas.microsoft.com/developer/vsx-schema/2011"
# the time of all files, if none is given: the earliest that a zip archive has
EPOCH = 315532800
OF_CODE = "Microsoft.VisualStudio.Code"
OF_SERVICES = "Microsoft.VisualStudio.Services"


def platform():
    machine = os.uname().machine
    return PLATFORMS.get(machine, f"linux-{machine}")


def manifest(about, has_server):
    """What an editor reads first of the package."""
    properties = {
        f"{OF_CODE}.Engine": about["engines"]["vscode"],
        f"{OF_CODE}.ExtensionKind": "workspace",
        f"{OF_CODE}.ExecutesCode": "true",
        f"{OF_SERVICES}.GitHubFlavoredMarkdown": "true",
    }
    assets = {
        f"{OF_CODE}.Manifest": "extension/package.json",
        f"{OF_SERVICES}.Content.Details": "extension/README.md",
        f"{OF_SERVICES}.Content.License": "extension/LICENSE.txt",
    }
    identity = {
        "Language": "en-US", "Id": about["name"], "Version": about["version"], "Publisher": about["publisher"],
    }
    if has_server:
        identity["TargetPlatform"] = platform()
    words = " ".join(f"{name}={quoteattr(value)}" for name, value in identity.items())
    return "\n".join([
        '<?xml version="1.0" encoding="utf-8"?>',
        f'<PackageManifest Version="2.0.0" xmlns="{SCHEMA}">',
        "<Metadata>",
        f"<Identity {words}/>",
        f"<DisplayName>{escape(about['displayName'])}</DisplayName>",
        f'<Description xml:space="preserve">{escape(about["description"])}</Description>',
        f"<Tags>{','.join(about['keywords'])}</Tags>",
        f"<Categories>{','.join(about['categories'])}</Categories>",
        "<GalleryFlags>Public</GalleryFlags>",
        "<License>extension/LICENSE.txt</License>",
        "<Properties>",
        *(f"<Property Id={quoteattr(name)} Value={quoteattr(value)}/>" for name, value in properties.items()),
        "</Properties>",
        "</Metadata>",
        f'<Installation><InstallationTarget Id="{OF_CODE}"/></Installation>',
        "<Dependencies/>",
        "<Assets>",
        *(f'<Asset Type="{name}" Path="{path}" Addressable="true"/>' for name, path in assets.items()),
        "</Assets>",
        "</PackageManifest>",
        "",
    ])


def content_types(has_server):
    """The type of each file, by the ending of its name."""
    return "\n".join([
        '<?xml version="1.0" encoding="utf-8"?>',
        '<Types xmlns="http://schemas.openxmlformats.org/package/2006/content-types">',
        *(f'<Default Extension=".{ending}" ContentType="{kind}"/>' for ending, kind in TYPES.items()),
        *([f'<Override PartName="/{SERVER}" ContentType="application/octet-stream"/>'] if has_server else []),
        "</Types>",
        "",
    ])


def bytes_of(*parts):
    with open(os.path.join(*parts), "rb") as file:
        return file.read()


def extension(when, has_server=True):
    """The package's bytes, with the built server or without; `when` is the time of all its files."""
    about = json.loads(bytes_of(SOURCES, "package.json"))
    files = {
        "[Content_Types].xml": content_types(has_server).encode(),
        "extension.vsixmanifest": manifest(about, has_server).encode(),
        "extension/LICENSE.txt": bytes_of(TOP, "LICENSE-MIT") + b"\n" + bytes_of(TOP, "LICENSE-APACHE"),
    }
    if has_server:
        files[SERVER] = bytes_of(program_of("ti_lsp"))
    shipped = [name for name in os.listdir(SOURCES) if name.endswith((".js", ".json", ".md"))]
    files.update({f"extension/{name}": bytes_of(SOURCES, name) for name in shipped})
    for grammar in about["contributes"]["grammars"]:
        path = os.path.normpath(grammar["path"])
        files[f"extension/{path}"] = bytes_of(TOP, "editors", "textmate", os.path.basename(path))
    made = io.BytesIO()
    with zipfile.ZipFile(made, "w", zipfile.ZIP_DEFLATED) as packed:
        for name in sorted(files):
            member = zipfile.ZipInfo(name, time.gmtime(when)[:6])
            member.compress_type, member.create_system = zipfile.ZIP_DEFLATED, 3
            member.external_attr = (0o100755 if name == SERVER else 0o100644) << 16
            packed.writestr(member, files[name])
    return made.getvalue()


def main():
    if len(sys.argv) != 2:
        print(__doc__, file=sys.stderr)
        return 2
    with open(sys.argv[1], "wb") as file:
        file.write(extension(int(os.environ.get("SOURCE_DATE_EPOCH", EPOCH)), has_server=False))
    return 0


if __name__ == "__main__":
    sys.exit(main())
