"""The program that stands for files, and what a program needs to call it."""
from cics.stand_in.counts import MADE
from cics.stand_in.file_commands import PROGRAM
from cics.stand_in.map_programs import filled
from cics.stand_in.other_commands import PROGRAM as REST
from cics.stand_in.records import FileDefinition, table_rows


def file_program(files: dict[str, FileDefinition]) -> list[str]:
    names = " ".join(files)
    head = [f"{MADE}FILES: MADE BY CICS-ADAPT", f"* FILES {names}"[:71], "* WHAT DIFFERS FROM CICS IS IN DOCS/STAND-INS.MD"]
    return [*head, *filled("files.asm", {"@@NAME@@": [f"{PROGRAM:<8}"], "@@FILES@@": table_rows(files)})]


def rest_program() -> list[str]:
    """The program of transient data, START and RETRIEVE, and times."""
    head = [f"{MADE}TRANSIENT DATA, START AND TIMES: MADE BY CICS-ADAPT", "* WHAT DIFFERS FROM CICS IS IN DOCS/STAND-INS.MD"]
    return [*head, *filled("rest.asm", {"@@NAME@@": [f"{REST:<8}"]})]
