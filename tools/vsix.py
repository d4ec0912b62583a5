"""The extension of VS Code as the file that it installs: a zip file of editors/vscode with two lists of what is in it."""
import json
import os
from xml.sax.saxutils import escape, quoteattr

from archives import zipped

TYPES = """<?xml version="1.0" encoding="utf-8"?>
<Types xmlns="http://schemas.openxmlformats.org/package/2006/content-types">%s</Types>
"""
TYPE = '<Default Extension="%s" ContentType="%s"/>'
KINDS = {".json": "application/json", ".md": "text/markdown", ".vsixmanifest": "text/xml"}

MANIFEST = """<?xml version="1.0" encoding="utf-8"?>
<PackageManifest Version="2.0.0" xmlns="http://schemas.microsoft.com/developer/vsx-schema/2011">
  <Metadata>
    <Identity Language="en-US" Id=%s Version=%s Publisher=%s/>
    <DisplayName>%s</DisplayName>
    <Description xml:space="preserve">%s</Description>
    <Categories>%s</Categories>
    <Properties>
      <Property Id="Microsoft.VisualStudio.Code.Engine" Value=%s/>
      <Property Id="Microsoft.VisualStudio.Code.ExtensionKind" Value=%s/>
    </Properties>
  </Metadata>
  <Installation><InstallationTarget Id="Microsoft.VisualStudio.Code"/></Installation>
  <Dependencies/>
  <Assets>
    <Asset Type="Microsoft.VisualStudio.Code.Manifest" Path="extension/package.json" Addressable="true"/>
    <Asset Type="Microsoft.VisualStudio.Services.Content.Details" Path="extension/README.md" Addressable="true"/>
  </Assets>
</PackageManifest>
"""


def manifest_of(package):
    """The list that says what the extension is, by its package.json."""
    identity = [quoteattr(package[word]) for word in ("name", "version", "publisher")]
    told = [escape(it) for it in (package["displayName"], package["description"], ",".join(package["categories"]))]
    return MANIFEST % (*identity, *told, quoteattr(package["engines"]["vscode"]), quoteattr(",".join(package["extensionKind"])))


def extension(files, seconds):
    """The file to install, of the extension's files by their paths in its folder."""
    types = "".join(TYPE % it for it in sorted(KINDS.items()))
    unknown = [path for path in files if os.path.splitext(path)[1] not in KINDS]
    if unknown:
        raise ValueError("tools/vsix.py has no kind for %s" % ", ".join(unknown))
    lists = {"extension.vsixmanifest": manifest_of(json.loads(files["package.json"][0])), "[Content_Types].xml": TYPES % types}
    made = {path: (text.encode(), 0o644) for path, text in lists.items()}
    made.update({"extension/" + path: it for path, it in sorted(files.items())})
    return zipped(made, seconds)
