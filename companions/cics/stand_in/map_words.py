"""What the macros of maps take: their operands, and the words that each may have."""
ATTRIBUTES = ("COLOR", "HILIGHT", "OUTLINE", "PS", "SOSI", "TRANSP", "VALIDN")  # extended ones
OF_EACH = {*ATTRIBUTES}
OF_SETS = {"CTRL", "CURSLOC", "DATA", "DSATTS", "EXTATT", "MAPATTS", "OBFMT", "PARTN", "TIOAPFX"}
OPERANDS = {
    "DFHMSD": {*OF_EACH, *OF_SETS, "BASE", "DSECT", "FOLD", "HTAB", "LANG", "LDC", "MODE", "STORAGE", "SUFFIX", "TERM", "TRIGRAPH", "TYPE", "VTAB"},
    "DFHMDI": {*OF_EACH, *OF_SETS, "COLUMN", "HEADER", "JUSTIFY", "LINE", "SIZE", "TRAILER"},
    "DFHMDF": {*OF_EACH, "ATTRB", "CASE", "GRPNAME", "INITIAL", "JUSTIFY", "LENGTH", "OCCURS", "PICIN", "PICOUT", "POS", "XINIT"},
}
TOLD = {"HILIGHT", "PS", "VALIDN", "PICIN", "PICOUT", "OUTLINE", "SOSI", "TRANSP", "BASE", "CURSLOC", "OBFMT", "HTAB", "VTAB", "LDC", "PARTN",
        "HEADER", "TRAILER"}  # operands that change what is seen elsewhere

YES_OR_NO = ("YES", "NO")
WORDS: dict[str, tuple[str, ...]] = {  # of operands whose words are few
    "TYPE": ("MAP", "DSECT", "&SYSPARM", "FINAL"), "MODE": ("IN", "OUT", "INOUT"), "LANG": ("ASM", "COBOL", "COBOL2", "PLI", "C", "RPG"),
    "STORAGE": ("AUTO",), "TIOAPFX": YES_OR_NO, "EXTATT": (*YES_OR_NO, "MAPONLY"), "DATA": ("FIELD",), "DSECT": ("ADS",), "TRIGRAPH": ("YES",),
    "FOLD": ("LOWER", "UPPER"), "CASE": ("MIXED",), "DSATTS": ATTRIBUTES, "MAPATTS": ATTRIBUTES,
    "CTRL": ("PRINT", "L40", "L64", "L80", "HONEOM", "FREEKB", "ALARM", "FRSET"),
    "COLOR": ("DEFAULT", "BLUE", "RED", "PINK", "GREEN", "TURQUOISE", "YELLOW", "NEUTRAL"),
    "ATTRB": ("ASKIP", "PROT", "UNPROT", "NUM", "BRT", "NORM", "DRK", "DET", "IC", "FSET"),
    "TERM": ("3270", "3270-2", "ALL"), "HILIGHT": ("OFF", "BLINK", "REVERSE", "UNDERLINE"), "VALIDN": ("MUSTFILL", "MUSTENTER", "TRIGGER", "USEREXIT"),
    "OUTLINE": ("BOX", "LEFT", "RIGHT", "OVER", "UNDER"), "SOSI": YES_OR_NO, "TRANSP": YES_OR_NO, "CURSLOC": YES_OR_NO, "OBFMT": YES_OR_NO,
    "HEADER": ("YES",), "TRAILER": ("YES",),
}
JUSTIFIED = {"DFHMDI": ("LEFT",), "DFHMDF": ("LEFT", "RIGHT", "BLANK", "ZERO")}
LISTS = {"DSATTS", "MAPATTS", "CTRL", "ATTRB", "JUSTIFY", "VALIDN", "OUTLINE"}  # operands of several words
AGAINST = [{"ASKIP", "PROT", "UNPROT"}, {"BRT", "NORM", "DRK"}, {"LEFT", "RIGHT"}, {"BLANK", "ZERO"}, {"L40", "L64", "L80", "HONEOM"}]
# of each at most one may be given


def words_of(operation: str, key: str) -> tuple[str, ...]:
    """The words that an operand may have; none where these aren't counted."""
    return JUSTIFIED[operation] if key == "JUSTIFY" else WORDS.get(key, ())
