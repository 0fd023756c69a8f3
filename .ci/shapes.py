"""Requests as no honest client writes them, and some that only look so: a table of their bytes, and
of the status that answers each where it comes to `serve` as it is, for served.py.

They carry a message for one controller of a folder, beside which there is one called `hidden`. In
what some carry behind that stands a request with a message for `hidden`, whose target the proxies
let nobody ask. None stands for a connection that is closed with no response.
"""
HIDDEN_MESSAGE = ('{"JMF":{"Command":{"AbortQueueEntryParams":{"QueueEntryID":"S1"},"ID":"A.S1",'
                  '"Type":"AbortQueueEntry"},"ReceiverID":"hidden","SenderID":"mis",'
                  '"TimeStamp":100,"Version":"1.5"}}')
HIDDEN = (f"POST /hidden HTTP/1.1\r\nHost: h\r\nContent-Length: {len(HIDDEN_MESSAGE)}\r\n\r\n"
          + HIDDEN_MESSAGE)


def shapes(message):
    """The table, of a message that is answered with 200: names, bytes and statuses."""
    size = len(message)
    length = f"Content-Length: {size}"
    host = "Host: h"

    def post(*fields, start="POST /mis HTTP/1.1", body=message, end="\r\n"):
        return end.join([start, *fields, "", ""]) + body

    def start(line):
        return post(host, length, start=line)

    def sized(value):
        return post(host, "Content-Length:" + value)

    def coded(*fields):
        return post(host, *fields, body="0\r\n\r\n" + HIDDEN)

    def of_size(count):
        """A head of so many bytes."""
        fields = [host, length, "Filler: "]
        return post(host, length, "Filler: " + (count - len(post(*fields, body=""))) * "f")

    def of_fields(count):
        return post(host, length, *(f"F{number}: f" for number in range(count - 2)))

    table = [
        ("whole", post(host, length), 200),
        ("HTTP/1.0 without a host", post(length, start="POST /mis HTTP/1.0"), 200),
        ("no host", post(length), 400),
        ("two hosts", post(host, "Host: g", length), 400),
        ("a host of nothing", post("Host:", length), 200),
        ("LF alone", post(host, length, end="\n"), 200),
        ("LF and CR LF", f"POST /mis HTTP/1.1\nHost: h\r\n{length}\n\r\n{message}", 200),
        ("empty lines first", "\r\n\r\n\n" + post(host, length), 200),
        ("too many empty lines first", 5000 * "\r\n" + post(host, length), 400),
        ("CR alone", post(host, length, end="\r"), 400),
        ("CR in a value", post(host, length, "A: b\rContent-Length: 3"), 400),
        ("NUL in a value", post(host, length, "A: b\0c"), 400),
        ("NUL in a target", start("POST /m\0is HTTP/1.1"), 400),
        ("a blank before the colon", post(host, f"Content-Length : {size}"), 400),
        ("a blank before a name", post(" " + host, length), 400),
        ("a folded field", post(host, "A: b\r\n c", length), 400),
        ("a folded length", post(host, "Content-Length:\r\n " + str(size)), 400),
        ("a field without a colon", post(host, "field", length), 400),
        ("a field without a name", post(host, ": field", length), 400),
        ("no length", post(host), 411),
        ("the length twice", post(host, length, length), 400),
        ("two lengths", post(host, length, "Content-Length: 3"), 400),
        ("two lengths in other cases", post(host, "content-length: 3", length), 400),
        ("a list of lengths", sized(f" {size}, {size}"), 400),
        ("a length with a plus", sized(f" +{size}"), 400),
        ("a length with a minus", sized(f" -{size}"), 400),
        ("a length of hexadecimals", sized(f" {size:#x}"), 400),
        ("a length with zeros in front", sized(f" 000{size}"), 200),
        ("a length of nothing", sized(""), 400),
        ("a length of a word", sized(" many"), 400),
        ("a length among blanks", sized(f" \t {size} \t "), 200),
        ("a length in two pieces", sized(f" {size // 10} {size % 10}"), 400),
        ("a length with a dot", sized(f" {size}.0"), 400),
        ("a length of 2 to the 32nd and more", sized(f" {2**32 + size}"), 413),
        ("a length of 2 to the 64th and more", sized(f" {2**64 + size}"), 413),
        ("a length of 40 digits", sized(" " + 40 * "9"), 413),
        ("a length over the most", sized(" 67108865"), 413),
        ("less than the length", sized(f" {size + 10}"), 400),
        ("more than the length", sized(f" {size - 10}"), 400),
        ("chunked", coded("Transfer-Encoding: chunked"), 501),
        ("chunked, and a length", coded("Transfer-Encoding: chunked", "Content-Length: 5"), 501),
        ("a length, and chunked", coded("Content-Length: 5", "Transfer-Encoding: chunked"), 501),
        ("chunked twice", coded("Transfer-Encoding: chunked", "Transfer-Encoding: chunked"), 501),
        ("a list of codings", coded("Transfer-Encoding: gzip, chunked"), 501),
        ("identity", coded("Transfer-Encoding: identity", "Content-Length: 5"), 501),
        ("xchunked", coded("Transfer-Encoding: xchunked", "Content-Length: 5"), 501),
        ("chunked in other cases", coded("tRANSFER-eNCODING: cHUNKED", "Content-Length: 5"), 501),
        ("chunked behind a tab", coded("Transfer-Encoding:\tchunked", "Content-Length: 5"), 501),
        ("a blank behind a coding's name", coded("Transfer-Encoding : chunked",
                                                 "Content-Length: 5"), 400),
        ("a vertical tab in a coding", coded("Transfer-Encoding: \vchunked",
                                             "Content-Length: 5"), 400),
        ("chunks in HTTP/1.0", post("Transfer-Encoding: chunked", start="POST /mis HTTP/1.0",
                                    body="0\r\n\r\n"), 501),
        ("a content coding", post(host, length, "Content-Encoding: gzip"), 501),
        ("GET", start("GET /mis HTTP/1.1"), 405),
        ("HEAD", start("HEAD /mis HTTP/1.1"), 405),
        ("OPTIONS", start("OPTIONS * HTTP/1.1"), 405),
        ("CONNECT", start("CONNECT h:80 HTTP/1.1"), 405),
        ("TRACE", start("TRACE /mis HTTP/1.1"), 405),
        ("post", start("post /mis HTTP/1.1"), 405),
        ("another method", start("BREW /mis HTTP/1.1"), 405),
        ("a request in the body of GET", "GET /mis HTTP/1.1\r\nHost: h\r\n\r\n" + HIDDEN, 405),
        ("no method", start(" /mis HTTP/1.1"), 400),
        ("a method with a colon", start("PO:ST /mis HTTP/1.1"), 400),
        ("no target", start("POST HTTP/1.1"), 400),
        ("two blanks", start("POST  /mis HTTP/1.1"), 400),
        ("a tab for a blank", start("POST\t/mis HTTP/1.1"), 400),
        ("a blank in a target", start("POST /mis /hidden HTTP/1.1"), 400),
        ("no version", start("POST /mis"), 400),
        ("HTTP/1.2", start("POST /mis HTTP/1.2"), 400),
        ("HTTP/2.0", start("POST /mis HTTP/2.0"), 400),
        ("HTTP/1.1x", start("POST /mis HTTP/1.1x"), 400),
        ("http/1.1", start("POST /mis http/1.1"), 400),
        ("HTTP/2 as it begins", "PRI * HTTP/2.0\r\n\r\nSM\r\n\r\n", 400),
        ("a call by TLS", b"\x16\x03\x01\x00\xa5\x01\x00\x00\xa1\x03\x03" + 160 * b"\x8f", 400),
        ("bytes of no form", bytes(range(128, 256)) + b"\r\n\r\n", 400),
        ("zeros", 9000 * b"\0", 400),
        ("a head of 8,192 bytes", of_size(8192), 200),
        ("a head of 8,193 bytes", of_size(8193), 400),
        ("64 fields", of_fields(64), 200),
        ("65 fields", of_fields(65), 400),
        ("half a head", "POST /mis HTTP/1.1\r\nHost: h\r\nConte", 400),
        ("half a start", "POS", 400),
        ("nothing", "", None),
        ("a target with a #", start("POST /mis#/hidden HTTP/1.1"), 200),
        ("a # behind another path", start("POST /none#/mis HTTP/1.1"), 200),
        ("a whole URL", start("POST http://h/mis HTTP/1.1"), 200),
        ("a long target", start(f"POST /{6000 * 'a'}/mis HTTP/1.1"), 200),
        ("a way up", start("POST /hidden/../mis HTTP/1.1"), 200),
        ("a letter by its number", start("POST /%6dis HTTP/1.1"), 200),
        ("a query", start("POST /mis?a=/hidden HTTP/1.1"), 200),
        ("a value of other letters", post(host, length, "A: \u00e9\u20ac"), 200),
        ("a body of no UTF-8", post(host, "Content-Length: 4", body="").encode() + b'{"\xff}', 400),
        ("a body of nothing", post(host, "Content-Length: 0", body=""), 400),
        ("a deep body", post(host, "Content-Length: 9000", body=9000 * "["), 400),
        ("no message", post(host, "Content-Length: 2", body="{}"), 400),
        ("a line behind the body", post(host, length) + "\r\n", 200),
        ("a request behind the body", post(host, length) + HIDDEN, 200),
        ("half a request behind it", post(host, length) + HIDDEN[:30], 200),
        ("a body expected", post(host, length, "Expect: 100-continue"), 200),
        ("another thing expected", post(host, length, "Expect: the-worst"), 200),
        ("a connection to be kept", post(host, length, "Connection: keep-alive"), 200),
        ("an upgrade", post(host, length, "Connection: upgrade", "Upgrade: h2c"), 200),
        ("fields named as a coding", post(host, length, "Connection: Transfer-Encoding"), 200),
    ]
    return [(name, given if isinstance(given, bytes) else given.encode(), status)
            for name, given, status in table]
