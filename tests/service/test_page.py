"""The page to look at (`--page`): what it counts and shows, who may look, that what strangers wrote is text, and how a browser shows it."""
import base64
import collections
import datetime
import os
import pathlib
import shutil
import time

import pytest
import rule_table
import signing
from browser import Browser
from pages import Read, asked, explained, form, shown
from stird import status_of
from test_doors import at_socket, outer
from web import Fetched, Fetching, Web
from world import START, World, code_list

DAY = 86400
SCRIPT = "<script>alert(1)</script>"


@pytest.fixture
def service(started):
    return started("--page", "yes")


@pytest.fixture
def soon(tmp_path):
    """A world of today whose certificates end in twenty days, and one of them, of a stranger, with marks of HTML in its subject and code."""
    world = World(tmp_path / "soon", 2, int(time.time()) - 280 * DAY)
    leaf = world.certificate(SCRIPT, "middle", code_list("<i>&'"), holder="leaf 1")
    (world.folder / "chain-1.der").write_bytes(leaf + (world.folder / "chain-0.der").read_bytes()[len((world.folder / "leaf-0.der").read_bytes()):])
    (world.folder / "table.txt").write_text(f"0000 {world.number(0, 0)} 10000\n<i>&' {world.number(1, 0)} 10000\n")
    return world


def test_without_its_word_there_is_no_page(started):
    service = started()
    assert service.ask("GET", "/")[0] == 404 and service.ask("POST", "/", form("INVITE"))[0] == 404


def test_calls_are_counted_by_rule_and_by_signer(service, world):
    """As they are by hand, by what `/verify` said of each."""
    rules, signers = collections.Counter(), collections.defaultdict(collections.Counter)
    for number, (n, kind, by) in enumerate([(0, "good", 0), (0, "good", 0), (1, "good", 1), (0, "outside", 0), (0, "forged", None), (2, "old", None),
                                            (2, "unlisted", None), (1, "unsigned", None), (1, "unsigned", None)], 1):
        message = world.call(n, START, number, kind)
        for _ in range(2 if kind == "good" and n == 1 else 1):
            one = service.verify(message, START)
            rules[one["rule"]] += one["outcome"] != "valid"
            signers["no good signature" if by is None else world.code(by)][one["outcome"]] += 1
    page = shown(service)
    assert page.is_safe(), (page.tags, page.attributes, page.links, page.open)
    counted = {int(row[1]): int(row[0]) for row in page.rows if len(row) == 4 and row[0].isdigit()}
    assert counted == {rule: count for rule, count in rules.items() if count}, page.rows
    assert counted == {2: 2, 9: 1, 10: 1, 16: 1, 17: 1, 18: 1}
    told = {row[0]: tuple(map(int, row[1:])) for row in page.rows if len(row) == 5 and row[1].isdigit()}
    assert told == {name: tuple(one[word] for word in ("valid", "refused", "replay", "unjudged")) for name, one in signers.items()}, page.rows
    assert told["0000"] == (2, 1, 0, 0) and told["0001"] == (1, 0, 1, 0), told
    assert "10 judged: 3 valid, 6 refused, 1 replays, 0 unjudged" in page.text and "No call was judged." in page.text, page.text
    for line, count in (('outcome="refused",signer="0000"', 1), ('outcome="replay",signer="0001"', 1), ('outcome="refused",signer=""', 5)):
        assert service.metric(f"stir_signer_calls_total{{{line}}}") == count, line


@pytest.mark.parametrize("kind, rule", [("good", None), ("unsigned", 2), ("old", 9), ("unlisted", 10), ("forged", 16), ("outside", 17)])
def test_an_invite_is_explained_rule_by_rule(service, world, kind, rule):
    message = world.call(0, START, 70, kind)
    before = service.metrics("stir_calls_total"), service.metrics("stir_tickets ")
    page = explained(service, message.decode(), START)
    tried = [*rule_table.CODES]
    at = tried.index(rule) if rule else len(tried)
    wanted = dict.fromkeys(tried[:at], "holds") | dict.fromkeys([*tried[at:], rule_table.REPLAY], "not tried") | ({rule: "broken"} if rule else {})
    assert page.rules() == wanted, page.text
    value = next((line.split(": ", 1)[1] for line in message.decode().splitlines() if line.startswith("Identity")), None)
    assert page.marks == ([value] if rule and rule != 2 else []), page.marks
    assert page.preformatted == [message.decode().replace("\r\n", "\n")], page.preformatted
    assert (service.metrics("stir_calls_total"), service.metrics("stir_tickets ")) == before, "it was counted, or its ticket claimed"
    told = service.verify(message, START)
    assert (told["rule"] or None) == rule, told
    assert explained(service, message.decode(), START).rules() == wanted, "a call that passed is explained as before"


def test_a_place_is_marked_where_the_proved_library_reads_it(service, world):
    value = world.identity(0, world.number(0, 1), "13105550100", START - 99, 1)
    whole = world.invite(world.number(0, 1), "13105550100", 1, value).decode()
    field = f"Identity: {value}\r\n"
    for name, message, marks, said in (
        ("the field is the second with these bytes", whole.replace(field, f"Subject: {value}\r\n{field}"), [value], "Identity field 1"),
        ("its compact name", whole.replace("Identity:", "y:"), [value], "Identity field 1"),
        ("a byte of it", whole.replace(";alg=ES256", ";alg=<"), [value.replace(";alg=ES256", ";alg=<"), "<"], "byte "),
        ("no INVITE", whole.replace("CSeq: 1 INVITE", "CSeq; 1 INVITE"), ["C"], "byte "),
        ("two of them", whole.replace(field, field + field.replace("alg=ES256", "alg=RS256").replace("shaken", "div")), [value.replace(
            "alg=ES256", "alg=RS256").replace("ppt=shaken", "ppt=div")], "Identity field 2"),
        ("in two lines", whole.replace(";info", "\r\n ;info"), [], "stands in several lines"),
    ):
        page = explained(service, message, START)
        assert page.marks == marks and said in page.text, (name, page.marks, page.text)
        assert page.is_safe(), (name, page.tags)


def test_what_strangers_wrote_is_text(started, soon):
    """In a message, and in the x5u, the subject and the code of a certificate."""
    x5u = "https://certificates.example.org/'&lt;b&gt;.pem"
    (soon.folder / "chains.txt").write_text(f"{soon.x5u(0)} {soon.folder}/chain-0.der\n{x5u} {soon.folder}/chain-1.der\n")
    service = started("--page", "yes", by=soon)
    message = soon.invite(soon.number(0, 1), "13105550100", 1, f"{SCRIPT};info=<https://{SCRIPT}>;alg=ES256").decode()
    subject = f"Subject: </textarea></pre>{SCRIPT}<img src=x onerror=alert(1)>\r\n"
    message = message.replace("From: <", f'From: "{SCRIPT}" <').replace("Contact", f"{subject}Contact")
    page = explained(service, message)
    assert page.is_safe(), (page.tags, page.attributes, page.links)
    assert page.rules()[3] == "broken" and page.preformatted == [message.replace("\r\n", "\n")], page.text
    said = next(row for row in page.rows if row[1:2] == [x5u])
    assert said[2:] == ["CN=\\<script\\>alert(1)\\</script\\>", "<i>&'", "listed"], said
    field = soon.identity(1, soon.number(1, 5), "13105550100", int(time.time()), 5, x5u=x5u)
    assert service.outcome(soon.invite(soon.number(1, 5), "13105550100", 5, field), int(time.time())) == "valid"
    page = shown(service)
    assert page.is_safe() and ["<i>&'", "1", "0", "0", "0"] in page.rows, page.rows


def test_certificates_that_end_soon_are_listed(started, soon):
    page = shown(started("--page", "yes", by=soon))
    assert "Of 2 chains that are listed or fetched, 2 end within 30 days." in page.text, page.text
    end = (soon.now + datetime.timedelta(days=300)).strftime("%Y-%m-%dT%H:%M:%SZ")
    lines = sorted(row[:3] for row in page.rows if len(row) == 5 and row[1].startswith("https:"))
    assert lines[0] == [end, soon.x5u(0), "CN=leaf 0"] and len(lines) == 2, lines


def test_certificates_that_were_fetched_are_listed_too(stird, tmp_path):
    web = Web(tmp_path / "web")
    world = Fetched(tmp_path / "world", 1, web, int(time.time()) - 295 * DAY)
    try:
        with Fetching(stird, [*world.anchors(), *web.words(), "--page", "yes"]) as service:
            assert service.told_of(world.to("chain/0", 1)) == ("valid", 0, "fetched")
            line = next(row for row in shown(service).rows if len(row) == 5 and row[1].startswith("https:"))
            assert line[1:] == [world.x5u(0), "CN=leaf 0", "0000", "fetched"], line
            page = explained(service, world.to("chain/0?again", 2).decode())
            assert page.rules()[17] == "holds" and "0000 CN=leaf 0" in page.text, "its certificates are fetched as for a call"
    finally:
        web.stop()


def test_how_it_stands_is_told(started, world):
    assert "Ready: calls are judged as they should be." in shown(started("--page", "yes")).text
    page = shown(started("--page", "yes", "--redis", "127.0.0.1:9"))
    assert "Not ready: calls aren't judged as they should be." in page.text and "tickets: " in page.text, page.text


def test_a_browser_is_told_to_run_nothing(service):
    for method, body, status in (
        ("GET", None, 200), ("HEAD", None, 200), ("POST", form("x"), 200), ("POST", b"moment=1", 400), ("POST", form("x", "-1"), 400),
    ):
        got, fields, text = asked(service.port, method, body)
        assert got == status and fields["Content-Type"] == "text/html; charset=utf-8", (method, body, got)
        policy = dict(part.strip().split(" ", 1) for part in fields["Content-Security-Policy"].split(";"))
        assert policy.pop("style-src").startswith("'sha256-"), policy
        assert policy == {"default-src": "'none'", "form-action": "'self'", "base-uri": "'none'", "frame-ancestors": "'none'"}, policy
        for name, value in (("X-Content-Type-Options", "nosniff"), ("Referrer-Policy", "no-referrer"), ("Cache-Control", "no-store")):
            assert fields[name] == value, (name, fields[name])
        assert Read(text).is_safe() if text else method == "HEAD", text
    assert asked(service.port, "PUT", b"")[0] == 405 and asked(service.port, "POST", form("x" * 131072))[0] == 413
    assert service.metric("stir_bad_requests_total") == 3 and service.metric("stir_request_seconds_count") == 0


def test_this_host_may_look_by_its_address(started, tmp_path):
    path = tmp_path / "socket"
    service = started("--page", "yes", "--listen", f"unix:{path}", listen="0.0.0.0:0")
    assert asked(service.port)[0] == 200 and asked(service.port, host="localhost")[0] == 200
    for host in ("rebound.example", f"rebound.example:{service.port}", "127.0.0.1.example"):
        status, fields, text = asked(service.port, fields={"Host": host})
        assert status == 403 and Read(text).is_safe() and "Content-Security-Policy" in fields, (host, status)
    assert status_of(at_socket(path, b"GET / HTTP/1.1\r\nHost: x\r\nConnection: close\r\n\r\n")) == 200
    if address := outer():
        assert asked(service.port, host=address)[0] == 403 and asked(service.port, "POST", form("x"), host=address)[0] == 403


def test_with_tokens_a_browser_asks_for_one(started, world, tmp_path):
    (tmp_path / "blocks.txt").write_text(signing.table(world, tmp_path, [(0, 0, 100, "A")]))
    (tmp_path / "tokens").write_text("first-token-of-32-characters-abcdef\n")
    service = started("--page", "yes", "--signing", tmp_path / "blocks.txt", "--signing-tokens", tmp_path / "tokens")
    token = "first-token-of-32-characters-abcdef"
    basic = base64.b64encode(f"anybody:{token}".encode()).decode()
    for authorization, wanted in ((None, 401), (f"Bearer {token}", 200), (f"Basic {basic}", 200), (f"Bearer {token}x", 401), ("Basic YTpi", 401)):
        status, fields, _ = asked(service.port, fields={"Authorization": authorization} if authorization else {})
        assert status == wanted, (authorization, status)
        assert (fields["WWW-Authenticate"] == 'Basic realm="stird", charset="UTF-8"') == (wanted == 401), fields.items()
    assert asked(service.port, fields={"Authorization": f"Basic {basic}", "Host": "stird.example"})[0] == 200


@pytest.mark.skipif(not shutil.which("chromium"), reason="chromium is missing")
def test_a_browser_shows_it_and_runs_no_script(started, soon, tmp_path):
    """STIR_PICTURES may name a folder in which the pictures stay."""
    service, pictures = started("--page", "yes", by=soon), pathlib.Path(os.environ.get("STIR_PICTURES", tmp_path))
    now = int(time.time())
    for number, kind in enumerate(["good"] * 30 + ["old"] * 5 + ["forged"] * 3 + ["outside"] * 8 + ["unsigned"] * 11):
        service.verify(soon.call(0, now, number, kind), now)
    with Browser(tmp_path) as browser:
        browser.open(f"http://127.0.0.1:{service.port}/")
        dom = browser.dom()
        assert "57 judged" in Read(dom).text, dom
        width, height = browser.picture(pictures / "page.png")
        assert width >= 1100 and 600 < height < 6000, (width, height)
        field = soon.identity(0, soon.number(0, 1), "13105550100", now - 99, 99)
        invite = soon.invite(soon.number(0, 1), "13105550100", 99, field).decode()
        browser.explain(invite.replace("From: <", f'From: "{SCRIPT}" <'), now)
        page = Read(browser.dom())
        assert page.rules()[9] == "broken" and page.marks == [field] and page.is_safe(), page.text
        mark = browser.run("getComputedStyle(document.querySelector('pre mark')).backgroundColor")
        assert mark not in ("", "rgba(0, 0, 0, 0)"), "its style isn't taken"
        width, height = browser.picture(pictures / "explained.png")
        assert width >= 1100 and 600 < height < 6000, (width, height)
        assert not browser.console, browser.console
        # That the policy holds is seen by a script that the browser is made to write into the page.
        browser.run("document.body.append(Object.assign(document.createElement('script'), {text: 'document.title = 1'}))")
        assert browser.run("document.title") == "stird"
        browser.explain("no INVITE")
        assert len(Read(browser.dom()).marks) == 1, browser.dom()
