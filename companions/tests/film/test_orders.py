"""Tests of films of scripts with ORDERS: of each list of moves there is a film, which begins where ORDERS stands. ORDERS is answered from a
text, by the stand-in of the companions' tests."""
import os

from cics.film.command import filmed
from cics.film.page import page_of
from tests.case import CICSLOOK as PROGRAM
from tests.case import TestCase, expect
from tests.film.trials import data_of, states_of
from tests.test_orders import BLOCK, HEAD, STAND_IN

SCRIPT = f"{HEAD}* every order\n{BLOCK.replace('ORDERS', 'orders')}KEY T001 ENTER ADD\n"
AREA = "> AREA 001000 LENGTH 000200 CWA OWNER REGION"
KEYS = ["> KEY T001 ENTER ADD", "> KEY T002 ENTER ADD"]
ONE_AFTER_THE_OTHER = [KEYS[0], "> RUN T001 6", KEYS[1], "> RUN T002 6"]
LOST = [*KEYS, "> RUN T001 3", "> * ADDRESS NORMAL 4", "> RUN T002 6", "> RUN T001 3"]
FOUND = ["> ORDERS STATES 153 OUTCOMES 2 KEYS WHEN ASKED", "> OUTCOME 1", "> 001000  00000002                             ....", AREA, *ONE_AFTER_THE_OTHER,
         "> OUTCOME 2", "> 001000  00000001                             ....", AREA, *LOST, "> ORDERS SOME NEVER REST", *LOST[:4]]


def page_of_orders(found: list[str]) -> str:
    """The page of the script, where ORDERS writes these lines."""
    os.environ.update(CICSLOOK=PROGRAM, OLD_SOURCE="no source", OLD="", NEW="\n".join(found))
    return page_of([filmed("orders.script", SCRIPT, STAND_IN)])[0]


class OrdersTest(TestCase):
    def test_orders_have_films(self) -> None:
        [film] = data_of(page_of_orders(FOUND))
        [search] = film["searches"]
        expect("where ORDERS stands", (search["line"], search["before"], search["states"], search["most"]) == (17, 4, 153, None), search)
        whats = [it["what"] for it in search["lists"]]
        expect("what the lists lead to", whats == ["outcome 1", "outcome 2", "some never rest"], whats)
        expect("the script goes on after ORDERS", film["events"][-1]["answer"] == "KEY T001 Attached", film["events"][-1])
        for it, last in zip(search["lists"], ("00000002", "00000001", "00000000")):
            *_, (event, shown) = states_of(it["film"])
            texts = [one["text"] for one in it["film"]["events"]]
            expect(f"{it['what']}: the film begins before ORDERS", texts[:2] == ["TERMINAL T002", it["moves"][0]], texts)
            expect(f"{it['what']}: what is seen at its end", f" {last} " in shown["cwa"][0], (event, shown["cwa"]))
        [film] = data_of(page_of_orders([FOUND[0].replace("STATES 153 OUTCOMES 2", "MORE THAN 100 STATES, ALL OF 7 MOVES"), *FOUND[1:8]]))
        [search] = film["searches"]
        expect("a search that is cut", (search["most"], len(search["lists"])) == (100, 1), search)
        [film] = data_of(page_of_orders([FOUND[0].replace("S 2", "S 1"), *FOUND[1:4]]))
        expect("an outcome without moves", "film" not in film["searches"][0]["lists"][0], film["searches"])
        [film] = data_of(page_of_orders(["> </script><b>", *(f"> OUTCOME {at}" for at in range(1, 41))]))
        expect("another answer", len(film["searches"][0]["lists"]) == 40, film["searches"])
        many = [line for at in range(1, 41) for line in (f"> OUTCOME {at}", f"> 001000  000000{at:02} ....", *ONE_AFTER_THE_OTHER)]
        [film] = data_of(page_of_orders([FOUND[0].replace("S 2", "S 40"), *many]))
        films = sum("film" in it for it in film["searches"][0]["lists"])
        expect("of many outcomes some have a film", films == 32, films)
