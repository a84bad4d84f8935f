"""Lists in a P-Asserted-Identity field (RFC 3325, section 9.1): each value counts as one of a field of its own (RFC 3261, section 7.3.1)."""
import pytest
from world import START


def with_asserted(world, number, *fields):
    """A good call of which the origin stands in From, with these P-Asserted-Identity fields."""
    text = b"".join(b"P-Asserted-Identity: %s\r\n" % field.encode() for field in fields)
    return world.call(0, START, number).replace(b"Contact:", text + b"Contact:", 1)


def told(service, message):
    one = service.verify(message, START)
    return one["outcome"], one["rule"], one.get("place")


# Values, and whether the calling number, which the first of them that has one says (docs/RULES.md), is the one that is signed.
LISTS = {
    "an address without a number, and another number": (("<sip:pbx@example.org>", "<tel:+19995550000>"), False),
    "an address without a number, and the caller's": (("<sip:pbx@example.org>", "<tel:+{orig}>"), True),
    "the caller's number twice": (("<sip:+{orig}@example.org;user=phone>", "<tel:+{orig}>"), True),
    "another number, and the caller's": (("<sip:+19995550000@example.org;user=phone>", "<tel:+{orig}>"), False),
    "a comma in a name": (('"Doe, Jane" <sip:pbx@example.org>', "<tel:+{orig}>"), True),
    "a quote in a name": (('"a \\", <tel:+19995550000>" <sip:pbx@example.org>', "<tel:+{orig}>"), True),
    "a comma in an address": (("<sip:a,b@example.org>", "<tel:+19995550000>"), False),
    "three of them": (("<sip:a@example.org>", "<sip:b@example.org>", "<tel:+19995550000>"), False),
}
PASSES, OTHER = ("valid", 0), ("refused", 7)


@pytest.mark.parametrize("case", LISTS)
def test_a_list_in_one_field_is_judged_as_one_field_a_value(case, started, world):
    orig = world.number(0, 1)
    values, is_signed = LISTS[case]
    values = [value.format(orig=orig) for value in values]
    wanted = PASSES if is_signed else OTHER
    assert told(started("--split", "no"), with_asserted(world, 1, *values))[:2] == wanted, "in a field each they are judged otherwise"
    assert told(started("--split", "yes"), with_asserted(world, 1, ", ".join(values)))[:2] == wanted


@pytest.mark.parametrize("spelled", ["{0},{1}", "{0} ,\t{1}", "{0},\r\n {1}", "{0}\r\n\t, {1}"])
def test_a_list_may_be_spelled_in_any_way(spelled, started, world):
    values = "<sip:pbx@example.org>", "<tel:+19995550000>"
    assert told(started(), with_asserted(world, 1, spelled.format(*values)))[:2] == OTHER


def test_without_splitting_the_first_address_of_a_field_counts(started, world):
    service = started("--split", "no")
    assert told(service, with_asserted(world, 1, "<sip:pbx@example.org>, <tel:+19995550000>"))[:2] == PASSES


def test_by_default_lists_are_split(started, world):
    assert told(started(), with_asserted(world, 1, "<sip:pbx@example.org>, <tel:+19995550000>"))[:2] == OTHER


ODD = {
    "a comma": ",", "a comma behind": "<tel:+1>,", "a comma before": ",<tel:+1>", "two commas": "<tel:+1>,,<tel:+2>",
    "an open quote": '"open <tel:+1>, <tel:+2>', "an open address": "<tel:+1, <tel:+2>", "20,000 letters": "x" * 20000 + ",<tel:+1>",
}


@pytest.mark.parametrize("odd", ODD)
def test_what_is_no_list_is_judged_as_it_came(odd, started, world):
    message = with_asserted(world, 1, ODD[odd])
    assert told(started("--split", "yes"), message) == told(started("--split", "no"), message)


def test_a_body_that_looks_like_a_field_is_none(started, world):
    message = world.call(0, START, 1) + b"P-Asserted-Identity: <sip:pbx@example.org>, <tel:+19995550000>\r\n"
    assert told(started("--split", "yes"), message) == told(started("--split", "no"), message)
