"""Which definitions have to be believed: what the contracts of the exported calls and the claims about them reach. To be imported by the scripts
beside it."""

from sources import Declaration, SourceError

# the static library that C links
EXPORTS = 'crates/pfcp_session_c/src/lib.rt'
# each is looked for in the specs of all crates
CLAIMS = [
    'HostClaim',
    'HostRestores',
    'TwoRuns',
    'ReleasedIsRemoved',
    'NoTwoPatients',
    'NoMemory',
    'HostDue',
    'TrafficDue',
    'OthersStay',
    'RepliesNamed',
    'TrafficClaim',
    'StoreTold',
    'AtMostOnce',
    'RestorationShort',
    'RestorationAccepted',
    'RestorationsGiveBack',
    'RestorationsTellAll',
    'SessionFound',
    'HolderFound',
    'LiveFound',
    # reading and writing an element are inverse
    'FteidInverse',
    'FteidCodeInverse',
    'UeIpInverse',
    'UeIpCodeInverse',
    'UeIpCanonical',
    'UeIpCodeCanonical',
    'FqcsidInverse',
    'FqcsidCodeInverse',
    'FseidInverse',
    'FseidCodeBack',
]
# what the kit gives every file and every contract without a `use` line
PRELUDE = {'Unit', '⊥'}


def exported_calls(sources):
    """The functions that the library exports to C."""
    if EXPORTS not in sources.sources:
        raise SourceError(f'there is no file {EXPORTS}')
    return [function for function in sources.sources[EXPORTS].functions.values() if function.exported()]


class Belief:
    """What is believed: the declarations that the roots reach, and the kit's names among them."""

    def __init__(self, sources):
        roots, strange = set(), set()
        for function in exported_calls(sources):
            used, unknown = sources.contract_uses(function)
            roots |= used
            strange |= {(name, function.place()) for name in unknown}
        roots |= {sources.specified(name) for name in CLAIMS}
        found, unknown = sources.reached(roots)
        strange |= unknown
        unexplained = sorted((place, name) for name, place in strange if name not in PRELUDE)
        if unexplained:
            raise SourceError('\n'.join(f'{place}: {name} is neither imported nor declared' for place, name in unexplained))
        self.declarations = sorted((d for d in found if isinstance(d, Declaration)), key=lambda d: (d.module.path, d.line))
        self.kit = {name for name in found if isinstance(name, str)} | {f'its prelude.{name}' for name, _ in strange}

    def by_file(self):
        files = {}
        for one in self.declarations:
            files.setdefault(one.module.path, []).append(one)
        return files

    def lines(self):
        return sum(len(one.lines()) for one in self.declarations)

    def table(self):
        """The lines of a table of files, for docs/trust.md."""
        yield '| File | Definitions | Lines |'
        yield '|---|---|---|'
        for path, declarations in self.by_file().items():
            yield f'| [{path.removeprefix("crates/")}](../{path}) | {len(declarations)} | {sum(len(one.lines()) for one in declarations)} |'
        yield f'| together | {len(self.declarations)} | {self.lines():,} |'
