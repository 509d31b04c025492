"""Where a peer is known to read an answer otherwise, and which section of MS-TDS decides. By_hand.py and from_layout.py mark
the tokens; a difference at any other token is unexplained. README.md has the same table with the peers' places."""

WIRESHARK = {
    "no such token": "TABNAME, COLINFO, RETURNVALUE, FEDAUTHINFO and DATACLASSIFICATION aren't dissected (2.2.7.23, .3, .19, .12, .5)",
    "SSPI": "the length is doubled; it counts bytes, US_VARBYTE (2.2.7.22, 2.2.5.1.3)",
    "ENVCHANGE 15": "the new value isn't read; it is L_VARBYTE (2.2.7.9)",
    "ENVCHANGE 20": "neither value is read; they are a US_VARBYTE and two zero bytes (2.2.7.9)",
    "null text": "a text pointer of length 0 is read with a timestamp and a value; it is null, and nothing follows (2.2.7.20)",
    "variant": "a text pointer and a timestamp are read before a SQL_VARIANT; it has a length of 4 bytes alone (2.2.5.5.4)",
    "bytes behind a text": "the same of a SQL_VARIANT of another type behind one of NVARCHAR in its column",
    "XML schema": "four names behind counts of 1 byte are read; there are three, the last behind 2 bytes (2.2.5.5.3)",
    "long state": "a state's length behind FF is read as 2 bytes from a place 2 bytes on; it is 4 bytes (2.2.7.21)",
    "long name": "twice the count of a program's name is kept in one byte (2.2.7.14)",
    "many columns": "more than 256 columns aren't dissected (2.2.7.4)",
    "encryption": "the table of keys and crypto metadata aren't dissected (2.2.7.4)",
    # what the layout accepts and no server sends
    "counted": "what stands in the token is read, and not its length (2.2.7: a length counts what follows it)",
    "length of a time": "a time's length is taken from its scale, and not from its count (2.2.5.4.2)",
    "parts of a short type": "FFFF as the most bytes of BINARY, CHAR and NCHAR; the standard has it for VARBINARY, VARCHAR and NVARCHAR alone (2.2.5.4.3)",
    "no metadata": "FFFF forgets the columns that were known; nothing is described (2.2.7.4)",
}


def left_to_freetds(answer):
    """Why FreeTDS isn't asked for an answer, or None."""
    kinds = {kind for _, kind, _ in answer.tokens}
    if "encryption" in answer.agreed:
        return "column encryption was agreed on, which FreeTDS never does (2.2.7.4)"
    if 0xA3 in kinds:
        return "DATACLASSIFICATION, which it never agrees on (2.2.7.5)"
    if kinds & {0xED, 0xEE}:
        return "SSPI and FEDAUTHINFO, which it reads in a login alone (2.2.7.22, 2.2.7.12)"
    if answer.kinds & {0x37, 0x3F}:
        return "DECIMAL and NUMERIC of before TDS 7.0, which it has no more (2.2.5.4.2)"
    if "bytes behind a text" in {mark for _, mark in answer.marks}:
        return "a SQL_VARIANT of another type behind one of NVARCHAR in its column: it converts the bytes as it did the text, and gives up"
    return None
