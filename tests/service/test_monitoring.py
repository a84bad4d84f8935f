"""The alerts and the dashboard of packaging/monitoring: Prometheus's own tools read them, each metric in them is one that a running service has, and
the alerts come over series of real services, and not over those of a quiet one."""
import concurrent.futures
import dataclasses
import http.client
import json
import pathlib
import re
import shutil
import subprocess
import sys
import time
import urllib.parse
import urllib.request

import pytest
import redises
from stird import Stird, free_port, wait_until
from web import Fetched, Fetching, Web
from world import START, World

sys.path.append(str(pathlib.Path(__file__).resolve().parent.parent / "ctl"))
import trusted  # noqa: E402

DAY = 86400
TOP = pathlib.Path(__file__).resolve().parents[2] / "packaging/monitoring"
RULES, BOARD = TOP / "stird.rules.yml", TOP / "stird.dashboard.json"
METRIC = re.compile(r"\bstir_[a-z0-9_]+")
LINE = re.compile(r"(\w+)(?:\{(.*)\})? (\S+)")

pytestmark = pytest.mark.skipif(not shutil.which("promtool"), reason="prometheus is missing")


def promtool(*words):
    done = subprocess.run(["promtool", *map(str, words)], capture_output=True, text=True, check=False)
    assert done.returncode == 0, done.stdout + done.stderr
    return done.stdout


@dataclasses.dataclass(frozen=True)
class Series:
    """A series of a service: its metric, whether that is a gauge, and its labels."""
    name: str
    is_gauge: bool
    labels: str


def series(service):
    """What a service counts, once there is a place to ask for it: the value of each series."""
    service.metric("stir_tickets")
    text = service.ask("GET", "/metrics")[1]
    gauges = set(re.findall(r"^# TYPE (\w+) gauge$", text.decode(), re.M))
    found = (LINE.fullmatch(line) for line in text.decode().splitlines() if not line.startswith("#"))
    return {Series(one[1], one[1] in gauges, one[2] or ""): float(one[3]) for one in found}


def expressions():
    """The expressions of the dashboard, as Grafana asks them."""
    board = json.loads(BOARD.read_text())
    for panel in board["panels"]:
        for target in panel.get("targets", ()):
            yield panel["title"], target["expr"].replace("$__rate_interval", "5m").replace("$instance", ".+")


def text_of(number):
    """A number as a test of rules takes it."""
    return f"{number:.9f}".rstrip("0").rstrip(".")


def test_the_alerts_and_the_dashboard_are_read_by_prometheus(tmp_path):
    """The dashboard's expressions as rules of their own."""
    assert "SUCCESS" in promtool("check", "rules", RULES)
    lines = [f"      - record: panel:{number}\n        expr: {json.dumps(text)}\n" for number, (_, text) in enumerate(expressions())]
    (tmp_path / "board.yml").write_text("groups:\n  - name: board\n    rules:\n" + "".join(lines))
    assert f"{len(lines)} rules found" in promtool("check", "rules", tmp_path / "board.yml")


def test_each_metric_that_they_name_is_one_that_a_service_has(stird, tmp_path):
    web = Web(tmp_path / "web")
    world = Fetched(tmp_path / "world", 1, web)
    try:
        with Fetching(stird, [*world.anchors(), *web.words()]) as service:
            assert service.told_of(world.to("chain/0", 1))[0] == "valid"
            has = {one.name for one in series(service)}
            has |= {name.rpartition("_")[0] for name in has if name.endswith("_bucket")}
    finally:
        web.stop()
    for file in (RULES, BOARD):
        named = set(METRIC.findall(file.read_text()))
        assert len(named) > 10 and named <= has, (file.name, sorted(named - has))


class Case:
    """Series of a real service before and after something happened, as if half an hour lay between. They stand for an hour, then counters grow evenly
    and stand again, and gauges have their last value. The clock of Prometheus's test begins at 0, so seconds of Unix time are said from now on."""

    BEFORE, GROWING, AFTER = 60, 30, 90

    def __init__(self, folder):
        self.folder, self.lines = folder, ['up{job="stird",instance="here"} 1x200']

    def add(self, before, after):
        for one, last in after.items():
            first = before.get(one, 0.0)
            if one.name.endswith("timestamp_seconds") and last > 0:
                first = last = last - int(time.time())
            step = (last - first) / self.GROWING
            grows = f"{text_of(first + step)}+{text_of(step)}" if not one.is_gauge else text_of(last)
            labels = ",".join(filter(None, ['job="stird",instance="here"', one.labels]))
            values = f"{text_of(first)}x{self.BEFORE - 1} {grows}x{self.GROWING - 1} {text_of(last)}x{self.AFTER}"
            self.lines.append(f"{one.name}{{{labels}}} {values}")
        return self

    def fires(self, *alerts, minute=BEFORE + GROWING - 2):
        """Prometheus's tool says that exactly these alerts come in that minute. Sums of steps aren't exact, so it is before the last value. A busy
        machine is slow by itself, so alerts on times may come where none is wanted."""
        text = [f"rule_files: [{json.dumps(str(RULES))}]", "evaluation_interval: 1m", "tests:", "  - interval: 1m", "    input_series:"]
        for line in self.lines:
            name, values = re.fullmatch(r"(.*\}) (.*)", line).groups()
            text += [f"      - series: {json.dumps(name)}", f"        values: {json.dumps(values)}"]
        times = "" if any("Slow" in alert for alert in alerts) else ',alertname!~".+Slow"'
        firing = f'count by (alertname, rule, signer) (ALERTS{{alertstate="firing"{times}}})'
        text += ["    promql_expr_test:", f"      - expr: {firing}", f"        eval_time: {minute}m"]
        text += ["        exp_samples:"] * bool(alerts)
        for alert in alerts:
            text += [f"          - labels: {json.dumps(alert)}", "            value: 1"]
        (self.folder / "case.yml").write_text("\n".join(text) + "\n")
        promtool("test", "rules", self.folder / "case.yml")


def alert(name, **labels):
    """The series of an alert that fires."""
    return "{" + ",".join(f'{key}="{value}"' for key, value in ({"alertname": name} | labels).items()) + "}"


@pytest.fixture
def happens(tmp_path):
    """What a service counts before and after something is done with it."""
    def look(service, act):
        before = series(service)
        act()
        return Case(tmp_path).add(before, series(service))
    return look


def judged(service, world, calls):
    """Has a service judge calls of these kinds by these signers: so many of each."""
    number = 0
    for n, kind, count in calls:
        for _ in range(count):
            number += 1
            service.verify(world.call(n, START, number, kind), START)


def test_a_quiet_service_raises_none(started, world, happens):
    service = started()
    calls = [(0, "good", 200), (1, "good", 150), (2, "outside", 5), (0, "unsigned", 90), (1, "old", 9)]
    case = happens(service, lambda: judged(service, world, calls))
    for minute in (5, 70, 88, 160):
        case.fires(minute=minute)


def test_a_service_that_is_gone_is_told(tmp_path):
    case = Case(tmp_path)
    case.lines = ['up{job="stird",instance="here"} 1x59 0x60']
    case.fires(minute=59)
    case.fires(alert("StirdDown"), minute=62)


def test_calls_that_are_refused_are_told_by_rule_and_by_signer(started, world, happens):
    service = started()
    case = happens(service, lambda: judged(service, world, [(1, "good", 160), (0, "outside", 90), (0, "old", 110)]))
    case.fires(alert("StirdRefusedByRule", rule="9"), alert("StirdRefusedByRule", rule="17"), alert("StirdRefusedBySigner", signer="0000"))
    case.fires(minute=125)


def test_calls_that_come_again_are_told_by_signer(started, world, happens):
    service = started()

    def again():
        judged(service, world, [(0, "good", 250), (1, "good", 160)])
        judged(service, world, [(0, "good", 80)])

    happens(service, again).fires(alert("StirdReplays", signer="0000"))


def test_tickets_that_cant_be_kept_are_told(started, world, happens):
    service = started("--tickets", 5)
    happens(service, lambda: judged(service, world, [(0, "good", 9)])).fires(alert("StirdTicketsUnkept"), alert("StirdCallsUnjudged"))


def test_a_certificate_that_ends_within_a_week_is_told(stird, started, happens, tmp_path):
    for days, alerts in ((295, [alert("StirdCertificateEnds")]), (280, [])):
        world = World(tmp_path / str(days), 2, int(time.time()) - days * DAY)
        happens(started(by=world), lambda: None).fires(*alerts)


def test_fetches_that_fail_or_are_slow_are_told(stird, tmp_path, happens):
    web = Web(tmp_path / "web")
    world = Fetched(tmp_path / "world", 1, web)
    numbers = iter(range(1, 1000))
    try:
        with Fetching(stird, [*world.anchors(), *web.words(), "--connections", "5"]) as service:
            def gone():
                for host in range(2, 38):
                    service.told_of(world.to("gone/0", next(numbers), host=f"127.0.0.{host}"))
                    time.sleep(0.06)

            happens(service, gone).fires(alert("StirdFetchesFail"))

            def crowd():
                web.delay = 0.4
                time.sleep(1.2)
                with concurrent.futures.ThreadPoolExecutor(3) as workers:
                    asked = [workers.submit(sent, service.port, world.to(f"slow/0?{n}", next(numbers))) for n in range(9)]
                assert all(one.result() == 200 for one in asked)

            happens(service, crowd).fires(alert("StirdFetchWaitsFull"), alert("StirdSlow"))
    finally:
        web.stop()


def sent(port, message):
    """The status of the answer to a call on a connection of its own."""
    connection = http.client.HTTPConnection("127.0.0.1", port, timeout=30)
    try:
        connection.request("POST", "/verify", message)
        return connection.getresponse().status
    finally:
        connection.close()


def waiting(worker, web, port, message):
    """A call that waits for its certificates. It is sent again while a connection that was closed still has the place."""
    for _ in range(100):
        call = worker.submit(sent, port, message)
        assert wait_until(lambda: web.count() == 1 or call.done())
        if web.count() == 1:
            return call
    raise AssertionError("its certificates aren't asked for")


def test_connections_without_a_place_are_told(stird, tmp_path, happens):
    web = Web(tmp_path / "web")
    world = Fetched(tmp_path / "world", 1, web)
    web.delay = 1.0
    try:
        with Fetching(stird, [*world.anchors(), *web.words(), "--connections", "1"]) as service:
            def busy():
                service.connection.close()
                service.connection = None
                with concurrent.futures.ThreadPoolExecutor(1) as worker:
                    first = waiting(worker, web, service.port, world.to("slow/0", 1))
                    assert sent(service.port, world.to("chain/0", 2)) == 503
                    assert first.result() == 200

            happens(service, busy).fires(alert("StirdConnectionsTurnedAway"), alert("StirdSlow"))
    finally:
        web.stop()


@pytest.mark.skipif(not redises.PROGRAM, reason=redises.MISSING)
def test_a_store_of_tickets_that_is_slow_is_told(started, world, tmp_path, happens):
    with redises.Redis(tmp_path) as redis:
        service = started("--redis", redis.address())
        assert service.outcome(world.call(0, START, 900), START) == "valid"

        def slow():
            for number in range(901, 904):
                redis.says("CLIENT", "PAUSE", "250", "WRITE")
                service.verify(world.call(0, START, number), START)
                time.sleep(0.3)

        happens(service, slow).fires(alert("StirdClaimsSlow"), alert("StirdSlow"))


def test_files_that_arent_taken_and_lines_that_are_lost_are_told(started, tmp_path, happens):
    world = World(tmp_path / "world", 2)
    service = started("--log-file", "/dev/full", by=world, stderr=subprocess.DEVNULL, listen=f"127.0.0.1:{(port := free_port())}")
    service.port = port
    assert wait_until(lambda: lives(port), 60)

    def spoil():
        (world.folder / "table.txt").write_text("no table")
        (world.folder / "chain-0.der").unlink()
        assert wait_until(lambda: service.metric("stir_failed_reloads_total") and service.metric("stir_missing_chains"), 20)

    case = happens(service, spoil)
    case.fires(alert("StirdReloadFails"), alert("StirdLogLinesLost"), minute=66)
    case.fires(alert("StirdReloadFails"), alert("StirdChainsMissing"), minute=75)


def test_lines_of_the_record_that_are_lost_are_told(started, world, happens):
    service = started("--record", "/dev/full")

    def lose():
        judged(service, world, [(0, "good", 9)])
        assert wait_until(lambda: service.metric("stir_lost_records_total") > 0), service.text()

    happens(service, lose).fires(alert("StirdRecordLinesLost"))


def lives(port):
    try:
        return sent(port, b"no INVITE") == 200
    except OSError:
        return False


def test_a_revocation_list_that_has_ended_is_told(stird, tmp_path, happens):
    world = trusted.Trusted(tmp_path)
    world.write("list.crl", trusted.crl([], ends="2026-02-01"))
    words = [*world.by(), f"--crl={world.folder / 'list.crl'}", f"--crl-signer={world.folder / 'agency.pem'}"]
    with Stird(stird, words) as service:
        happens(service, lambda: None).fires(alert("StirdRevocationListEnded"), minute=150)


def test_prometheus_takes_the_rules_and_the_series_of_a_service(started, world, tmp_path):
    """The server of Prometheus itself: it asks a service, and each rule can be worked out."""
    service, port = started(), free_port()
    judged(service, world, [(0, "good", 3), (1, "outside", 2)])
    (tmp_path / "prometheus.yml").write_text(
        f"global: {{scrape_interval: 1s, evaluation_interval: 1s}}\nrule_files: [{json.dumps(str(RULES))}]\nscrape_configs:\n"
        f"  - job_name: stird\n    static_configs: [{{targets: ['127.0.0.1:{service.port}']}}]\n")
    with open(tmp_path / "prometheus.log", "wb") as log:
        server = subprocess.Popen(["prometheus", f"--config.file={tmp_path}/prometheus.yml", f"--storage.tsdb.path={tmp_path}/data",
                                   f"--web.listen-address=127.0.0.1:{port}"], stdout=log, stderr=log)

    def asked(path):
        try:
            with urllib.request.urlopen(f"http://127.0.0.1:{port}/api/v1/{path}", timeout=5) as answer:
                return json.load(answer)["data"]
        except OSError:
            return None

    def value(expression):
        found = asked("query?" + urllib.parse.urlencode({"query": expression}))
        return found and [one["value"][1] for one in found["result"]]

    try:
        assert wait_until(lambda: value("stir_signer_calls_total{outcome='refused'}") == ["2"], 60), (tmp_path / "prometheus.log").read_text()
        assert wait_until(lambda: all(rule["health"] == "ok" for group in asked("rules")["groups"] for rule in group["rules"]), 60), asked("rules")
        assert len(asked("rules")["groups"][0]["rules"]) == RULES.read_text().count("- alert:")
        for title, expression in expressions():
            assert value(expression) is not None, title
        assert value("stir_tickets_kept") == ["1"] and value("up") == ["1"]
    finally:
        server.terminate()
        server.wait(20)


def test_each_alert_has_its_case():
    tried = set(re.findall(r'alert\("(\w+)"', pathlib.Path(__file__).read_text()))
    assert tried == set(re.findall(r"alert: (\w+)", RULES.read_text()))
