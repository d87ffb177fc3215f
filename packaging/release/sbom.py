#!/usr/bin/env python3
# SPDX-License-Identifier: LicenseRef-Wengeludo
"""The software bill of materials, SPDX 2.3 in JSON: the parts of a release, their sums, and what each needs of others.

    python3 packaging/release/sbom.py FOLDER   the parts in FOLDER; prints the document

Versions come from the header, needs from the pyproject files, the date from the newest commit: the same tree gives the same document.
"""
import hashlib
import json
import os
import re
import subprocess
import sys

ROOT = os.path.abspath(os.path.join(os.path.dirname(__file__), '..', '..'))
LICENCE = 'LicenseRef-Wengeludo'


def text_of(path):
    with open(os.path.join(ROOT, path), encoding='utf-8') as file:
        return file.read()


def version():
    header = text_of('include/wengeludo_balance.h')
    return '.'.join(re.search(rf'VERSION_{part} (\d+)', header).group(1) for part in ('MAJOR', 'MINOR', 'PATCH'))


def date():
    told = subprocess.run(['git', '-C', ROOT, 'log', '-1', '--format=%cd', '--date=format-local:%Y-%m-%dT%H:%M:%SZ'],
                          capture_output=True, text=True, check=True, env={**os.environ, 'TZ': 'UTC'})
    return told.stdout.strip()


def needs(path):
    """The names of the packages that a pyproject file needs."""
    listed = re.search(r'^dependencies = \[(.*?)\]', text_of(path), re.M | re.S).group(1)
    return sorted(re.match(r'[\w.-]+', name).group() for name in re.findall(r'"([^"]+)"', listed))


def package(name, of, concluded):
    return {'SPDXID': f'SPDXRef-{re.sub("[^A-Za-z0-9.-]", "-", name)}', 'name': name, 'versionInfo': of, 'downloadLocation': 'NOASSERTION',
            'licenseConcluded': concluded, 'licenseDeclared': concluded, 'copyrightText': 'NOASSERTION', 'filesAnalyzed': False}


def part(folder, name):
    """A file of the release as a package, with its sum."""
    with open(os.path.join(folder, name), 'rb') as file:
        found = hashlib.sha256(file.read()).hexdigest()
    return {**package(name, version(), LICENCE), 'checksums': [{'algorithm': 'SHA256', 'checksumValue': found}]}


def needed(name):
    """What a file of the release needs of others when it runs."""
    if name.endswith('.a') or name.startswith('libwengeludo1_'):
        return ['libc']
    if name.startswith(('wengeludo_balance-', 'python3-wengeludo_')):
        return needs('bindings/python/pyproject.toml')
    if name == f'wengeludo-{version()}.tar.gz' or name.endswith('_all.deb'):
        return sorted({*needs('desk/pyproject.toml'), 'graphviz', 'libc'} - {'wengeludo_balance'})
    return []


def document(folder):
    """The document for the files of a folder."""
    names = [name for name in sorted(os.listdir(folder)) if name not in ('SHA256SUMS', 'sbom.spdx.json')]
    own = [part(folder, name) for name in names]
    others = {name: package(name, 'NOASSERTION', 'NOASSERTION') for name in sorted({word for name in names for word in needed(name)})}
    relations = [{'spdxElementId': 'SPDXRef-DOCUMENT', 'relationshipType': 'DESCRIBES', 'relatedSpdxElement': one['SPDXID']} for one in own]
    relations += [{'spdxElementId': one['SPDXID'], 'relationshipType': 'DEPENDS_ON', 'relatedSpdxElement': others[word]['SPDXID']}
                  for one in own for word in needed(one['name'])]
    return {'spdxVersion': 'SPDX-2.3', 'dataLicense': 'CC0-1.0', 'SPDXID': 'SPDXRef-DOCUMENT', 'name': f'wengeludo-{version()}',
            'documentNamespace': f'urn:wengeludo:{version()}:{hashlib.sha256(json.dumps(own).encode()).hexdigest()}',
            'creationInfo': {'created': date(), 'creators': ['Tool: packaging/release/sbom.py']}, 'packages': [*own, *others.values()], 'relationships': relations,
            'hasExtractedLicensingInfos': [{'licenseId': LICENCE, 'extractedText': text_of('LICENCE')}]}


if __name__ == '__main__':
    if len(sys.argv) != 2:
        sys.exit(__doc__)
    print(json.dumps(document(sys.argv[1]), indent=1))
