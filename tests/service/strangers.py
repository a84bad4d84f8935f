"""Calls each of which has an x5u that nobody asked for before, beside calls whose certificates are held."""
import collections
import concurrent.futures
import json
import time

import load
from stird import wait_until
from web import HOSTS


def beside(service, world, folder, count, numbers):
    """Sends so many calls with new x5us, as fast as eight connections go, and says what came of them. Calls by held chains are sent meanwhile, and beside a crowd
    of others like them, so that what else the machine does troubles both alike; they may not take much longer."""
    client, now = load.light_client(folder), int(time.time())

    def held(many):
        return [(now, world.to(f"chain/{n % 4}", next(numbers), n % 4)) for n in range(many)]

    for n in range(4):
        assert wait_until(lambda: service.outcome(world.to(f"chain/{n}", next(numbers), n)) == "valid")
    strangers = [(now, world.to(f"chain/0?{number}", next(numbers), host=f"127.0.0.{number % HOSTS + 1}")) for number in range(count)]
    times, asked = {}, world.web.count()
    for name, crowd in {"like them": held(count), "strangers": strangers}.items():
        files = [load.written(folder / part, calls) for part, calls in (("crowd", crowd), ("measured", held(300)))]
        with concurrent.futures.ThreadPoolExecutor(1) as worker:
            sent = worker.submit(load.send_light, service.port, files[0], 0, 8, client)
            time.sleep(0.2)
            answers, took, _ = load.send_light(service.port, files[1], 0, 2, client)
            others, _, seconds = sent.result()
        assert {json.loads(answer)["outcome"] for answer in answers} == {"valid"}
        times[name] = 1000 * sorted(took)[len(took) * 99 // 100]
    came = collections.Counter(json.loads(answer)["certificates"] for answer in others)
    assert set(came) <= {"fetched", "late", "failed limited"} and came["failed limited"], came
    new = world.web.count() - asked
    assert 0 < new <= 20 * (seconds + 1), (new, seconds)
    assert times["strangers"] < 5 * times["like them"] + 50, times
    parts = ", ".join(f"{time:.1f} ms beside {name}" for name, time in times.items())
    return f"of {count} x5us {new} were asked in {seconds:.1f} s ({dict(came)}); the 99th part of calls by held chains took {parts}"
