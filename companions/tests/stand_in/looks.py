"""What looks show of queues, as bytes."""
import re

LINE = re.compile(r"> [0-9A-F]{4} ((?:[0-9A-F]+ +)+)'")


def items_of(transcript: list[str], look: str) -> bytes:
    """The bytes that a look QUEUE name k shows."""
    found = bytearray()
    begin = next((at for at, line in enumerate(transcript) if line.startswith(f"> {look} ")), len(transcript))
    for line in transcript[begin + 1 :]:
        match = LINE.match(line)
        if match is None:
            break
        found += bytes.fromhex(match[1].replace(" ", ""))
    return bytes(found)
