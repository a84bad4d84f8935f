"""A page of the service as it is read by the parser of Python's library."""
import html.parser
import http.client
import urllib.parse

# What a page consists of; nothing of it runs anything or takes anything from elsewhere.
TAGS = set("""a body button div form h1 h2 h3 head header html input label li mark meta meter p pre section span style table tbody td textarea th
    title tr ul""".split())
ATTRIBUTES = set("action charset class content for href id inputmode lang max method min name placeholder required rows spellcheck value".split())


class Read(html.parser.HTMLParser):
    """The tables of a page row by row, what is marked in its message, its text, and what it is made of."""

    def __init__(self, text):
        super().__init__()
        self.rows, self.marks, self.marking, self.open, self.pieces, self.texts = [], [], [], [], [], []
        self.tags, self.attributes, self.links = set(), set(), set()
        self.feed(text)
        self.close()

    def handle_starttag(self, tag, attributes):
        self.tags.add(tag)
        self.attributes |= {name for name, _ in attributes}
        self.links |= {value for name, value in attributes if name in ("href", "action", "src")}
        if tag not in ("meta", "input", "link", "img"):
            self.open.append(tag)
        if tag == "tr":
            self.rows.append([])
        elif tag in ("td", "th"):
            self.rows[-1].append("")
        elif tag == "mark":
            self.marking.append(len(self.marks))
            self.marks.append("")
        elif tag == "pre":
            self.texts.append("")

    def handle_endtag(self, tag):
        assert self.open and self.open[-1] == tag, (tag, self.open)
        self.open.pop()
        if tag == "mark":
            self.marking.pop()

    def handle_data(self, data):
        self.pieces.append(data)
        if {"td", "th"} & set(self.open):
            self.rows[-1][-1] += data
        for number in self.marking:
            self.marks[number] += data
        if "pre" in self.open:
            self.texts[-1] += data

    @property
    def preformatted(self):
        """Texts that stand as they are. A line feed right after the beginning isn't part of one."""
        return [text.removeprefix("\n") for text in self.texts]

    @property
    def text(self):
        return "".join(self.pieces)

    def is_safe(self):
        """Whether it is made of what a page may be made of, and leads nowhere else."""
        return self.tags <= TAGS and self.attributes <= ATTRIBUTES and self.links <= {"/"} and not self.open

    def rules(self):
        """What is said of each rule of a call that was explained."""
        return {int(row[0]): row[1] for row in self.rows if len(row) == 4 and row[0].isdigit() and row[1] in ("holds", "broken", "not tried")}


def asked(port, method="GET", body=None, fields=(), host="127.0.0.1"):
    """Status, header fields and text of the page."""
    connection = http.client.HTTPConnection(host, port, timeout=60)
    try:
        connection.request(method, "/", body, dict(fields))
        answer = connection.getresponse()
        return answer.status, answer.headers, answer.read().decode()
    finally:
        connection.close()


def shown(service):
    """The page, read."""
    status, _, text = asked(service.port)
    assert status == 200, (status, text)
    return Read(text)


def form(message, moment=""):
    """The body in which a browser sends an INVITE."""
    return urllib.parse.urlencode({"invite": message, "moment": moment}).encode()


def explained(service, message, moment=""):
    """The page with this call explained, read."""
    status, _, text = asked(service.port, "POST", form(message, moment), {"Content-Type": "application/x-www-form-urlencoded"})
    assert status == 200, (status, text)
    return Read(text)
