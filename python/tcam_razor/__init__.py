"""TCAM Razor from Python: the program's commands as calls, the way from configurations to lists and back, and the scripts.

    import tcam_razor as razor
    lab = razor.imported("ios", text, assume={"state": "new"}).list
    table = razor.shorten(lab)
    dead = [rule.number for rule in razor.audit(lab) if rule.state == "never"]
    print(razor.exported("nft", lab))

The program decides, and its promises are of lists and tables. What makes lists of configurations is tested, and not proved.

| Module | Holds |
|---|---|
| `program`, `answers`, `errors` | the calls, what they answer, and what they raise |
| `importing`, `exporting`, `lines` | the commands `razor-import`, `razor-export` and `razor-lines` |
| `data`, `judge` | the commands `razor-json` and `razor-judge` |
| `configurations` | what the dialects of configurations say |
| `headers`, `lists`, `tables`, `memories` | what the texts spell: rules and entries, and which headers these match |
| `texts` | the lines of all texts, as an engineer writes them |
| `show`, `flows`, `report` | the scripts `razor-show`, `razor-flows` and `razor-report` |
| `razor` | runs of the program in a folder, for scripts that try it |
| `script`, `commands` | how scripts and commands read their words and end |
"""
from .answers import Certificate, Difference, List, Memory, Plan, Proof, RuleState, Table, WrongLine, WrongRow
from .errors import (BadText, Flagged, Misuse, NotExported, NotFound, NotImported, OutOfMemory, RazorError, ReadFault, TooMany,
                     WriteFault)
from .exporting import exported
from .headers import Header
from .importing import Imported, imported
from .program import (apply, arrange, audit, cert, check, compile, dump, equiv, expand, gen, merge, migrate, patch, place, prove,
                      query, shorten, trace, trim, verify)

__all__ = [
    "BadText", "Certificate", "Difference", "Flagged", "Header", "Imported", "List", "Memory", "Misuse", "NotExported", "NotFound",
    "NotImported", "OutOfMemory", "Plan", "Proof", "RazorError", "ReadFault", "RuleState", "Table", "TooMany", "WriteFault", "WrongLine",
    "WrongRow",
    "apply", "arrange", "audit", "cert", "check", "compile", "dump", "equiv", "expand", "exported", "gen", "imported", "merge",
    "migrate", "patch", "place", "prove", "query", "shorten", "trace", "trim", "verify",
]
