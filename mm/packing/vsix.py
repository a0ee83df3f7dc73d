"""The extension for Visual Studio Code as one file: a zip with a manifest, always of the same bytes."""

from __future__ import annotations

import io
import json
import zipfile
from xml.sax.saxutils import escape, quoteattr

from mm.packing.tree import Tree

FOLDER = "editors/vscode/"
TYPES = {"json": "application/json", "md": "text/markdown", "js": "application/javascript", "vsixmanifest": "text/xml"}
MANIFEST = """<?xml version="1.0" encoding="utf-8"?>
<PackageManifest Version="2.0.0" xmlns="http://schemas.microsoft.com/developer/vsx-schema/2011">
  <Metadata>
    <Identity Language="en-US" Id={name} Version={version} Publisher={publisher} />
    <DisplayName>{display}</DisplayName>
    <Description xml:space="preserve">{description}</Description>
    <Categories>{categories}</Categories>
    <Properties>
      <Property Id="Microsoft.VisualStudio.Code.Engine" Value={engine} />
    </Properties>
  </Metadata>
  <Installation>
    <InstallationTarget Id="Microsoft.VisualStudio.Code" />
  </Installation>
  <Dependencies />
  <Assets>
    <Asset Type="Microsoft.VisualStudio.Code.Manifest" Path="extension/package.json" Addressable="true" />
    <Asset Type="Microsoft.VisualStudio.Services.Content.Details" Path="extension/README.md" Addressable="true" />
  </Assets>
</PackageManifest>
"""


def _manifest(about: dict) -> str:
    return MANIFEST.format(
        name=quoteattr(about["name"]),
        version=quoteattr(about["version"]),
        publisher=quoteattr(about["publisher"]),
        display=escape(about["displayName"]),
        description=escape(about["description"]),
        categories=escape(",".join(about["categories"])),
        engine=quoteattr(about["engines"]["vscode"]),
    )


def _types() -> str:
    rows = "".join(f'<Default Extension=".{ending}" ContentType="{kind}"/>' for ending, kind in sorted(TYPES.items()))
    space = "http://schemas.openxmlformats.org/package/2006/content-types"
    return f'<?xml version="1.0" encoding="utf-8"?>\n<Types xmlns="{space}">{rows}</Types>\n'


def vsix(tree: Tree) -> tuple[str, bytes]:
    """The name and the bytes of the extension."""
    about = json.loads(tree[f"{FOLDER}package.json"].data)
    files = {"[Content_Types].xml": _types().encode(), "extension.vsixmanifest": _manifest(about).encode()}
    for path, entry in sorted(tree.items()):
        if path.startswith(FOLDER):
            files[f"extension/{path[len(FOLDER):]}"] = entry.data
    room = io.BytesIO()
    with zipfile.ZipFile(room, "w", zipfile.ZIP_DEFLATED) as archive:
        for path, data in files.items():
            about_file = zipfile.ZipInfo(path, (1980, 1, 1, 0, 0, 0))
            about_file.create_system, about_file.external_attr = 3, 0o100644 << 16
            about_file.compress_type = zipfile.ZIP_DEFLATED
            archive.writestr(about_file, data)
    return f"{about['name']}-{about['version']}.vsix", room.getvalue()
