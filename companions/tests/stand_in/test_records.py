"""Files as they are given by words: the record and its key in a source, and data of each kind as records."""
import os

from cics.cli import Failure
from cics.layout import Layout
from cics.log import Log
from cics.stand_in.record_data import records_of
from cics.stand_in.records import FileDefinition, GivenFile, Source, constants_of, file_of, queue_lines
from cics.statements import statements_of
from tests.calling import folder_of
from tests.case import TestCase, expect

SOURCE = """
DFHEISTG DSECT
OTHER    DS    F
CUSTREC  DS    0CL20
CRKEY    DS    CL4
CRNAME   DS    CL8
CRBAL    DS    PL3
CRCOUNT  DS    H
CRFLAGS  DS    XL2
LEN      DS    H
EMP      DSECT
         DS    CL2
EMPKEY   DS    CL5
EMPPAY   DS    F
OVER     DSECT
OVKEY    DS    CL2
OVTEXT   DS    CL3
         ORG   OVTEXT
OVPACK   DS    PL3
OVTABLE  DS    2PL2
P        CSECT
         EXEC  CICS RETURN
         END
""".strip("\n").split("\n")


def defined(word: str) -> FileDefinition:
    statements = statements_of(SOURCE, "p.asm")
    return file_of(GivenFile.of(word), [Source(statements, Layout(statements))])


# Data of CUSTMAS, and what is told of them.
REFUSED = [
    (b"", "1:1: refused: there is nothing; for a file without records write: --file CUSTMAS=,key=.."),
    (b"\xEF\xBB\xBF", "1:1: refused: there is nothing; for a file without records write: --file CUSTMAS=,key=.."),
    (b"\n", "1:1: refused: an empty line; a record of blanks is =C' '"),
    (b"CRKEY;CRBAL\n1;2\n", "1:6: refused: ';' in the line that names the fields; write commas between them"),
    (b"CRKEY\tCRBAL\n1\t2\n", "1:6: refused: '\\t' in the line that names the fields; write commas between them"),
    (b"crkey,CRBAL\n1,2\n", "1:1: refused: crkey is no field of the record; CRKEY?"),
    (b"CRKEY, CRBALL\n1,2\n", "1:8: refused: CRBALL is no field of the record; CRBAL?"),
    (b"NUMBER,AMOUNT\n1,2\n", "1:1: refused: NUMBER is no field of the record"),
    (b"CRKEY,CRBAL,CRKEY\n1,2,1\n", "1:13: refused: CRKEY is there twice"), (b"CRKEY,CRBAL,\n1,2,\n", "1:13: refused: no field's name"),
    (b"CRNAME,CRBAL\nA,2\n", "1:13: refused: CRKEY, of the key, isn't among these fields"),
    (b"CRKEY,\"CRBAL\n1,2\n", "1:7: refused: this quote isn't closed in its line"),
    (b"CRKEY,CRNAME,CRBAL\n1,A\n", "2:4: refused: no value of CRBAL"), (b"CRKEY,CRNAME,CRBAL\n1\n", "2:2: refused: no value of CRNAME, CRBAL"),
    (b"CRKEY,CRBAL\n1,2\n\n3,4\n", "3:1: refused: no value of CRKEY, CRBAL"), (b"CRKEY,CRBAL\n1,2,3\n", "2:5: refused: 3 values for 2 fields"),
    (b"CRKEY,CRBAL\n,2\n", "2:1: refused: CRKEY: no value of CRKEY, of the key"),
    (b"CRKEY,CRNAME\n1,\"A\nB\"\n", "2:3: refused: this quote isn't closed in its line"),
    (b"CRKEY,CRNAME\n1,\"A\"B\n", "2:6: refused: something between a closing quote and the comma"),
    (b"CRKEY,CRNAME\n1,A\"B\n", "2:4: refused: a quote within a value; write: the value between quotes, and two for each in it"),
    (b"CRKEY,CRNAME\n1,\"A\"\"^\"\n", "2:7: refused: CRNAME: '^' has no code here"),
    (b"CRKEY,CRNAME\n1,ABCDEFGHI\n", "2:11: refused: CRNAME: 9 characters, where there are 8 bytes"),
    (b"CRKEY,CRNAME\n1,M\xC3\xBCLLER\n", "2:4: refused: CRNAME: '\u00fc' has no code here"),
    (b"CRKEY,CRNAME\n1,M\xFCLLER\n", "2:4: refused: CRNAME: '\u00fc' has no code here"),
    (b"CRKEY,CRBAL\n1,1000000\n", "2:3: refused: CRBAL: '1000000' has 7 digits, where P of 3 bytes has 5"),
    (b"CRKEY,CRBAL\n1,--5\n", "2:3: refused: CRBAL: '--5' is no decimal"), (b"CRKEY,CRBAL\n1,1_0\n", "2:3: refused: CRBAL: '1_0' is no decimal"),
    (b"CRKEY,CRBAL\n1,1.2.3\n", "2:3: refused: CRBAL: '1.2.3' is no decimal"), (b"CRKEY,CRBAL\n1,.\n", "2:3: refused: CRBAL: '.' is no decimal"),
    (b"CRKEY,CRCOUNT\n1,40000\n", "2:3: refused: CRCOUNT: 40000 isn't from -32768 to 32767, as 2 bytes are"),
    (b"CRKEY,CRCOUNT\n1,1_000\n", "2:3: refused: CRCOUNT: '1_000' is no whole number"),
    (b"CRKEY,CRCOUNT\n1,1.5\n", "2:3: refused: CRCOUNT: '1.5' is no whole number"),
    (b"CRKEY,CRFLAGS\n1,AABBCCDD\n", "2:3: refused: CRFLAGS: 'AABBCCDD' has 8 hexadecimal digits, where 2 bytes have 4"),
    (b"CRKEY,CRFLAGS\n1,AA BB\n", "2:3: refused: CRFLAGS: 'AA BB': no hexadecimal digits"),
    (b"CRKEY,CRBAL\n1,2\n1,3\n", "3:1: refused: the key '1   ' is there twice, first in line 2"),
    (b"CRKEY,CRNAME\n1," + b"A" * 200_000 + b"\n", "2:11: refused: CRNAME: 200000 characters, where there are 8 bytes"),
    (b"CRKEY,CRBAL\n1," + b"1" * 10_000 + b"\n", f"2:3: refused: CRBAL: '{'1' * 40}..' has 10000 digits, where P of 3 bytes has 5"),
    (b"CRKEY,CRCOUNT\n1," + b"1" * 10_000 + b"\n", f"2:3: refused: CRCOUNT: '{'1' * 40}..' is no whole number"),
    (b"0001A\n0001B\n", "2:1: refused: the key '0001' is there twice, first in line 1"),
    (b"0001A^\n", "1:6: refused: '^' has no code here"), (b"==0001A^\n", "1:8: refused: '^' has no code here"),
    (b"0001 A CUSTOMER OF OURS\n", "1:21: refused: 23 characters, where a record of CUSTMAS has 20 bytes"),
    (b"=C'A'\n", "1:1: refused: a record of CUSTMAS has 4 to 20 bytes, and this one 1"),
    (b"=CL4'1',C'A&B'\n", '1:9: refused: "C\'A&B\'": an ampersand or apostrophe alone; write: two of them'),
    (b"=CL4'1',CL2'ABC'\n", "1:15: refused: 3 characters, where there are 2 bytes"),
    (b"=CL4'1',XL2'AABBCCDD'\n", "1:9: refused: 'AABBCCDD' has 8 hexadecimal digits, where 2 bytes have 4"),
    (b"=CL4'1',PL0'1'\n", '1:9: refused: "PL0\'1\'": a constant of P has 1 to 16 bytes'),
    (b"=CL4'1',F'1_0'\n", "1:9: refused: '1_0' is no whole number"),
    (b"=CL5'1',F'1'\n", "1:9: refused: \"F'1'\" stands at byte 5, no multiple of 4; write: X'000000' in front, or a length, FL4"),
    (b"=4294967295C'A'\n", '1:2: refused: "4294967295C\'A\'" has 4294967295 bytes, where a record has at most 32000'),
    (b"=(1+1)C'A'\n", "1:2: refused: \"(1+1)C'A'\": no constant; after = write constants, as CL5'A1000',PL4'125'"),
    (b"=CL4'1',Z'1'\n", "1:9: refused: \"Z'1'\": no constant; after = write constants, as CL5'A1000',PL4'125'"),
]


def read_of(word: str, data: bytes) -> tuple[list[bytes], list[str]]:
    """The records of data, and what is told of them: the line, perhaps the column, and why."""
    log = Log()
    name = word.split("=")[1].split(",")[0]
    with folder_of({name: data}) as folder:
        found = records_of(defined(word.replace(name, os.path.join(folder, name))), log)
        return found, [line.removeprefix(os.path.join(folder, name) + ":") for line in log.lines()]


class RecordsTest(TestCase):
    def records(self, word: str, data: bytes) -> list[bytes]:
        found, told = read_of(word, data)
        self.assertFalse([line for line in told if "refused" in line])
        return found

    def test_definitions(self) -> None:
        customers = defined("CUSTMAS=x,key=CRKEY")
        self.assertEqual((customers.length, customers.key_begin, customers.key_length), (20, 0, 4))
        self.assertEqual([(one.name, one.begin, one.length, one.kind) for one in customers.fields],
                         [("CRKEY", 0, 4, "C"), ("CRNAME", 4, 8, "C"), ("CRBAL", 12, 3, "P"), ("CRCOUNT", 16, 2, "H"), ("CRFLAGS", 18, 2, "X")])
        self.assertEqual(defined("CUSTMAS=x,key=CRKEY,record=CUSTREC"), customers)
        employees = defined("EMPFILE=,key=EMPKEY")
        self.assertEqual((employees.length, employees.key_begin, employees.key_length), (12, 2, 5))

    def test_values(self) -> None:
        text = b"CRKEY,CRNAME,CRBAL\n0002,BOB,-12\n0001,\"A, B\",1.50\n"
        first, second = self.records("CUSTMAS=DATA,key=CRKEY", text)
        self.assertEqual(first, "0001A, B    ".encode("cp037") + bytes.fromhex("00150C 40 0000 0000"))
        self.assertEqual(second[:15], "0002BOB     ".encode("cp037") + bytes.fromhex("00012D"))

    def test_decimals(self) -> None:
        """A point is ignored, wherever it stands; a value may be written as the assembler writes it; an empty one is zero."""
        for text, due in [("-12.50", "01250D"), ("+1.", "00001C"), (".5", "00005C"), (" 7 ", "00007C"), ("-0", "00000D"), ("", "00000C"), ("000000012", "00012C"),
                          ("P'-12.50'", "01250D")]:
            record, = self.records("CUSTMAS=DATA,key=CRKEY", f"CRKEY,CRBAL\n1,{text}\n".encode())
            self.assertEqual(record[12:15].hex().upper(), due, text)
        record, = self.records("CUSTMAS=DATA,key=CRKEY", b"=CL4'1',P'-12.50',P'1.50',PL2'.5',P'-1234.5'\n")
        self.assertEqual(record[4:], bytes.fromhex("01250D 150C 005C 12345D"))
        record, = self.records("CUSTMAS=DATA,key=CRKEY", b"CRKEY,CRCOUNT,CRFLAGS\n1,H'-3',X'a'\n")
        self.assertEqual(record[16:], bytes.fromhex("FFFD 000A"))

    def test_quotes(self) -> None:
        """Values between quotes; a byte order mark is no part of the text, and lines may end with a carriage return, too."""
        text = b"\xEF\xBB\xBF\"CRKEY\",CRNAME\r\n\"1\",\"A, \"\"B\"\"\"\r\n2,\"\"\r\n"
        first, second = self.records("CUSTMAS=DATA,key=CRKEY", text)
        self.assertEqual((first[:12], second[:12]), ('1   A, "B"  '.encode("cp037"), "2           ".encode("cp037")))
        self.assertEqual(self.records("CUSTMAS=DATA,key=CRKEY", b"CRKEY,CRNAME\n"), [])

    def test_lines(self) -> None:
        plain, given = self.records("CUSTMAS=DATA,key=CRKEY", b"0001PLAIN\n=CL4'0002',CL8'BOB',PL3'7'\n")
        self.assertEqual(plain, "0001PLAIN".encode("cp037").ljust(20, b"\x40"))
        self.assertEqual(given, "0002BOB     ".encode("cp037") + bytes.fromhex("00007C"))

    def test_fixed_length(self) -> None:
        self.assertEqual(self.records("CUSTMAS=DATA,key=CRKEY", b"\xF2" * 20 + b"\xF1" * 20), [b"\xF1" * 20, b"\xF2" * 20])

    def test_queue(self) -> None:
        records = self.records("EMPFILE=DATA,key=EMPKEY", b"=C'  ',CL5'AB',X'00',F'1'\n")
        self.assertEqual(queue_lines(defined("EMPFILE=,key=EMPKEY"), records), ["=X'0001',C'AB   ',X'0002'", "=C'  AB   ',X'0000000001'"])
        self.assertEqual(constants_of("A&'BCD".encode("cp037")), ["C'A&&''BCD'"])

    def test_words(self) -> None:
        for word, due in [("CUSTMAS=x,key=NOWHERE", "no source has a field NOWHERE"), ("CUSTMAS=x", "write: --file NAME=DATA,key=FIELD"),
                          ("X=x,key=OTHER", "no record around OTHER"), ("CUSTMAS=x,key=CRKEY,record=EMP", "no record around CRKEY"),
                          ("CUSTMAS=x,key=CRKEY,key=CRBAL", "write: --file"), ("CUSTMAS=x,key=", "write: --file"),
                          ("CUSTMAS=x,key=CRKEY,form=csv", "write: --file"), ("CUSTMAS=x,key=CRKEY,form", "write: --file")]:
            with self.assertRaises(Failure) as raised:
                defined(word)
            self.assertIn(due, str(raised.exception))

    def test_refused(self) -> None:
        for data, due in REFUSED:
            records, told = read_of("CUSTMAS=DATA,key=CRKEY", data)
            expect(f"{data!r}: refused", records == [] and due in told, (records, told))

    def test_forms(self) -> None:
        """Data that may have two forms are refused; form= says which."""
        text = b"0001A CUSTOMER OF US"
        self.assertEqual(read_of("CUSTMAS=DATA,key=CRKEY", text)[1],
                         ["1:1: refused: a line of text, or bytes of 1 records; write: form=fields, form=lines or form=bytes in --file"])
        self.assertEqual(read_of("CUSTMAS=DATA,key=CRKEY,form=lines", text)[0], [text.decode().encode("cp037")])
        self.assertEqual(read_of("CUSTMAS=DATA,key=CRKEY,form=bytes", text)[0], [text])
        self.assertEqual(read_of("CUSTMAS=DATA,key=CRKEY", b"\xC1" * 21)[1],
                         ["1:1: refused: 21 bytes are neither lines of text nor records of 20 bytes; write: form=fields, form=lines or form=bytes in --file"])
        self.assertEqual(read_of("CUSTMAS=DATA,key=CRKEY,form=bytes", b"\x0A" * 41)[1], ["1:41: refused: 1 bytes are left after records of 20"])
        self.assertEqual(read_of("CUSTMAS=DATA,key=CRKEY,form=bytes", b"\x0A" * 40)[1],
                         ["1:21: refused: the key '\\x8e\\x8e\\x8e\\x8e' is there twice, first in byte 1"])
        self.assertEqual(read_of("CUSTMAS=DATA.csv,key=CRKEY", b"KEY,NAME\n")[1],
                         ["1:1: refused: KEY is no field of the record; CRKEY?", "1:5: refused: NAME is no field of the record; CRNAME?"])
        self.assertEqual(read_of("CUSTMAS=DATA,key=CRKEY,form=lines", b"CRKEY,CRBAL\n")[0], ["CRKEY,CRBAL".encode("cp037").ljust(20, b"\x40")])

    def test_told(self) -> None:
        self.assertEqual(read_of("CUSTMAS=DATA,key=CRKEY", b"CRKEY\nA\nB\n")[1],
                         ["1: read: 2 records of CUSTMAS, by values of the fields that the first line names"])

    def test_too_many(self) -> None:
        """The index has two bytes, and six for each record: 5,460 of these are 32,762 bytes."""
        data = "CRKEY\n" + "".join(f"{at:04}\n" for at in range(5461))
        self.assertEqual(read_of("CUSTMAS=DATA,key=CRKEY", data.encode())[1],
                         ["5462:1: refused: 5461 records; for more than 5460 the index of keys has no room"])
        self.assertEqual(len(read_of("CUSTMAS=DATA,key=CRKEY", data.encode()[:-5])[0]), 5460)

    def test_redefined(self) -> None:
        """Of fields that share bytes one may be given; the others' zeros aren't put over it."""
        self.assertEqual(read_of("OVER=DATA,key=OVKEY", b"OVKEY,OVTEXT\nA,BCD\n")[0], ["A BCD".encode("cp037") + bytes.fromhex("000C000C")])
        self.assertEqual(read_of("OVER=DATA,key=OVKEY", b"OVKEY,OVPACK\nA,-12.50\n")[0], ["A ".encode("cp037") + bytes.fromhex("01250D000C000C")])
        self.assertEqual(read_of("OVER=DATA,key=OVKEY", b"OVKEY,OVPACK,OVTEXT\nA,1,B\n")[1],
                         ["1:14: refused: OVTEXT has bytes of OVPACK, which is given, too"])
        self.assertEqual(read_of("OVER=DATA,key=OVKEY", b"OVKEY,OVTABLE\nA,1\n")[1],
                         ["1:7: refused: OVTABLE is 2 numbers, which no value gives; write the records as constants after ="])
