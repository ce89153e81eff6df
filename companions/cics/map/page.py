"""The page of the map: one file of HTML, with its data as JSON, its script and its style."""
import os

from cics.map.report import Map, data_of
from cics.pages import assembled, json_of

MAKER = "cics-map"
FOLDER = os.path.dirname(os.path.abspath(__file__))


def page_of(found: Map) -> str:
    """The page."""
    return assembled(MAKER, FOLDER, {"DATA": json_of(data_of(found))})
