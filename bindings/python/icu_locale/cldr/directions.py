"""Which way scripts run, of the field `RTL?` of properties/scriptMetadata.txt."""
from .subtags import read_subtag

RIGHT_TO_LEFT = {"YES": "rtl", "NO": "ltr"}
COLUMN_OF_SCRIPT, COLUMN_OF_DIRECTION = 0, 6


def directions(common, account):
    """The table of directions: a script whose direction CLDR does not know is in neither list."""
    table = {"rtl": [], "ltr": []}
    for line in common.text("properties/scriptMetadata.txt").splitlines():
        fields = [field.strip() for field in line.split("#")[0].split(";")]
        if len(fields) <= COLUMN_OF_DIRECTION:
            continue
        script = read_subtag("script", fields[COLUMN_OF_SCRIPT])
        side = RIGHT_TO_LEFT.get(fields[COLUMN_OF_DIRECTION])
        if script and side:
            table[side].append(script)
        else:
            account.note("directions: scripts whose direction CLDR does not know", fields[COLUMN_OF_SCRIPT])
    return {side: sorted(scripts) for side, scripts in table.items()}
