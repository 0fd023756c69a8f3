"""nginx and haproxy with TLS before houses, as examples/deploy configures them: for deploy.py.

Of the files only ports, paths and the addresses of hosts differ.
"""
import contextlib
import json
import os
import re
import shutil
import ssl
import time

from crowd import connected, files_of, free_port, one_response, proxy_of, until_so
from deployed import COVER, OTHERS, OWN, SOON, example, is_closed, opening, option_words
from houses import House, begins, gives, lines_of, put_peers, shown
from processes import FINISH, content, request, status_in, wants


class Site:
    """Where a house is that has a proxy before it."""

    def __init__(self, name, proxy):
        self.name, self.proxy = name, proxy
        self.port, self.inbound, self.outbound = free_port(), free_port(), free_port()


def open_sites(office_proxy, printers_proxy):
    """An office with a job and printers with a press, and at which port the proxy of each house is;
    at that of the binders there is none."""
    sites = {"office": Site("office", office_proxy), "printers": Site("printers", printers_proxy)}
    inbound = {name: site.inbound for name, site in sites.items()}
    inbound["binders"] = free_port()
    os.symlink(OWN, "certificates")
    os.symlink(OTHERS, "others")
    for name, site in sites.items():
        os.mkdir(name)
        peers = example("peers.json").replace("127.0.0.1:8001", f"127.0.0.1:{site.outbound}")
        put_peers(name, peers)
    os.mkdir("printers/press")
    begins("office/job-1", opening("job-1"))
    return sites["office"], sites["printers"], inbound


def placed(site, inbound, own):
    """The configuration of a proxy, with the ports, paths and addresses of a test."""
    text = example({"nginx": "nginx.conf", "haproxy": "haproxy.cfg"}[site.proxy])
    pairs = [("/etc/toarnbif/", os.path.abspath(own) + "/"), ("127.0.0.1:8000", site.port),
             ("127.0.0.1:8001", site.outbound)]
    pairs.append({"nginx": ("listen 443 ssl", f"listen 127.0.0.1:{site.inbound} ssl"),
                  "haproxy": ("bind :443", f"bind 127.0.0.1:{site.inbound}")}[site.proxy])
    pairs += [(f"{name}.example:443", port) for name, port in inbound.items()]
    for old, new in pairs:
        assert old in text, old
        text = text.replace(old, f"127.0.0.1:{new}" if isinstance(new, int) else new)
    # What else stands there is the same, a comment perhaps that tells of a port.
    assert not re.search(r":443\b", text), "a port that isn't the test's"
    return text


@contextlib.contextmanager
def before(site, inbound, own=None):
    """The proxy before a house, with its certificate or another."""
    text = placed(site, inbound, own or f"certificates/{site.name}")
    with proxy_of(site.proxy, text, [site.inbound, site.outbound]):
        yield


def served(site):
    """The house itself, with the words of the unit."""
    return House(site.name, site.port, *option_words())


def a_job_goes_over_tls(office_proxy, printers_proxy):
    """A part goes out, is worked on and comes back, each by both proxies, and nobody carries it."""
    office, printers, inbound = open_sites(office_proxy, printers_proxy)
    with served(office) as at_office, served(printers) as at_printers, \
            before(office, inbound), before(printers, inbound):
        gives("office/job-1", COVER, "Spawned S1")
        until_so(lambda: lines_of("printers/press/job-1") == [["S1", "Open"]], "it comes", SOON)
        gives("printers/press/job-1", FINISH, "Finished S1")
        until_so(lambda: is_closed("printers/press/job-1"), "it is back", SOON)
        # What is sent twice is taken once.
        is_told(at_office, "job-1 200", "Merged S1 from press", "Already S1 from press")
        is_told(at_printers, "press/job-1 200", "Taken S1 from job-1", "Again S1 from job-1")
        wants((at_office.ends()[-1], at_printers.ends()[-1]), ("taken", "taken"))
    wants(shown("office/job-1").count('"Merged"'), 1)


def is_told(house, front, first, more):
    told = house.told(1)
    wants(told, [f"{front} {first}"] + (len(told) - 1) * [f"{front} {more}"])


def a_job_goes_from_nginx_to_haproxy():
    a_job_goes_over_tls("nginx", "haproxy")


def a_job_goes_from_haproxy_to_nginx():
    a_job_goes_over_tls("haproxy", "nginx")


def says(sender):
    """A message to the job from this sender, which refuses a spawn that the job hasn't."""
    return json.dumps({"JMF": {
        "ReceiverID": "job-1", "Response": {"ID": "Q.S7.a", "Reason": 20, "ReturnCode": 1,
                                            "Type": "SubmitQueueEntry", "refID": "Q.S7"},
        "SenderID": sender, "TimeStamp": 110, "Version": "1.5"}}, separators=(",", ":"))


@contextlib.contextmanager
def joined(site, own):
    """A connection to a house by TLS, with the certificate of a folder where one is named."""
    context = ssl.create_default_context(cafile="certificates/ca.pem")
    if own:
        context.load_cert_chain(f"{own}/house.pem", f"{own}/house.pem.key")
    with connected(site.inbound) as plain, \
            context.wrap_socket(plain, server_hostname=f"{site.name}.example") as client:
        yield client


def posted(site, own, given):
    """The status of the response to these bytes, or None where TLS is refused."""
    try:
        with joined(site, own) as client:
            client.sendall(given)
            return status_in(one_response(client))
    except ssl.SSLCertVerificationError:
        raise
    except (ssl.SSLError, ConnectionResetError, BrokenPipeError):
        return None


# The house whose certificate it is, the message, the fields that the client wrote, and the status.
TWICE = says("press").replace('"SenderID":"press"', '"SenderID":"press","SenderID":"bindery"')
SENDERS = (
    ("printers", says("press"), "", 200),
    ("printers", says("press"), "X-Sender: bindery\r\n", 200),
    ("binders", says("bindery"), "", 200),
    ("office", says("job-1"), "", 200),
    ("printers", says("bindery"), "", 403),
    ("printers", says("bindery"), "X-Sender: bindery\r\n", 403),
    ("printers", says("bindery"), "x-sender: bindery\r\nX-Sender: press\r\n", 403),
    ("printers", says("job-1"), "", 403),
    ("binders", says("press"), "X-Sender: press\r\n", 403),
    ("office", says("press"), "", 403),
    ("office", says("mis"), "", 403),
    ("printers", TWICE, "", 403),
    ("printers", says("Press"), "", 403),
)
ODD = (("office", says("job-1\n")), ("office", says("job-1\r\nX: y")), ("printers", "{}"),
       ("printers", ""), ("printers", says("press")[:-1]))


def nobody_sends_in_anothers_name(proxy):
    """Who has a certificate sends in the names of its house alone, whatever fields it writes."""
    office, _, inbound = open_sites(proxy, proxy)
    with served(office), before(office, inbound):
        for own, message, fields, status in SENDERS:
            came = posted(office, f"certificates/{own}", request(message, fields))
            wants((own, message, fields, came), (own, message, fields, status))
        for own, message in ODD:
            came = posted(office, f"certificates/{own}", request(message))
            assert came in (400, 403), (own, message, came)
        is_refused_before(office, {"nginx": 403, "haproxy": None}[proxy])


def is_refused_before(office, status):
    """What the proxy refuses itself."""
    good, printers = [status for *_, status in SENDERS].count(200), "certificates/printers"
    wants(posted(office, printers, request(says("press"))), 200)
    # A line comes behind its response.
    until_so(lambda: content("office.log").count(b" 200 ") > good, "all is told")
    time.sleep(0.2)
    held = content("office.log")
    for own in (None, "others/printers", "others/office"):
        wants((own, posted(office, own, request(says("press")))), (own, status))
    wants(posted(office, printers, request(says("press"), target="/")), 404)
    wants(posted(office, printers, request(1048577 * " ")), 413)
    # The program was asked for none of them.
    time.sleep(0.2)
    wants(content("office.log"), held)
    whole = " " * (1048576 - len(says("press"))) + says("press")
    wants(posted(office, printers, request(whole)), 200)


def nobody_sends_in_anothers_name_through_nginx():
    nobody_sends_in_anothers_name("nginx")


def nobody_sends_in_anothers_name_through_haproxy():
    nobody_sends_in_anothers_name("haproxy")


def slow_clients_stay_before(proxy):
    """Of a request that isn't all there yet nothing reaches the program."""
    office, _, inbound = open_sites(proxy, proxy)
    given = request(says("press"))
    with served(office) as at_office, before(office, inbound):
        files = files_of(at_office)
        with joined(office, "certificates/printers") as client:
            for part in (given[:60], given[60:-20]):
                client.sendall(part)
                time.sleep(0.4)
                wants(files_of(at_office), files)
            client.sendall(given[-20:])
            wants(status_in(one_response(client)), 200)
        wants(len(at_office.told(1)), 1)


def slow_clients_stay_before_nginx():
    slow_clients_stay_before("nginx")


def slow_clients_stay_before_haproxy():
    slow_clients_stay_before("haproxy")


def the_other_end_is_verified(proxy):
    """Nothing is sent to an end with another authority's certificate, or with another house's."""
    office, printers, inbound = open_sites(proxy, "nginx")
    # The ends let in whom they like.
    for house in ("others/printers", "certificates/binders"):
        os.makedirs("wrong/" + house)
        for name in ("house.pem", "house.pem.key"):
            shutil.copy(f"{house}/{name}", f"wrong/{house}/{name}")
        shutil.copy("certificates/ca.pem", f"wrong/{house}/ca.pem")
    with served(office) as at_office, served(printers), before(office, inbound):
        gives("office/job-1", COVER, "Spawned S1")
        for number, house in enumerate(("others/printers", "certificates/binders"), 1):
            with before(printers, inbound, "wrong/" + house):
                # What is out is sent as it starts.
                failed = len(at_office.sent())
                at_office.kill()
                at_office.start()
                until_so(lambda: len(at_office.sent()) > failed, "it is tried", SOON)
            wants({end[:9] for end in at_office.ends()}, {"not taken"})
            wants((number, os.listdir("printers/press")), (number, []))
        with before(printers, inbound):
            until_so(lambda: at_office.ends()[-1] == "taken", "it is taken", SOON)


def nginx_verifies_the_other_end():
    the_other_end_is_verified("nginx")


def haproxy_verifies_the_other_end():
    the_other_end_is_verified("haproxy")
